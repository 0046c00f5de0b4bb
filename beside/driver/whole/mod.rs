//! The whole reader: the same DROMs to the Rust and to every one of our ways in.

mod fed;
mod lent;
mod questions;

pub use lent::{LENT, Lent};
pub use questions::adapters;

use crate::differences::{Case, Expected, expected};
use crate::inputs::Random;
use crate::make::{FAMILIES, Made};
use crate::oracle;
use crate::tally::{Tally, Total, Verdict};
use crate::text::case_line;

/// What a way in is asked with: a buffer to lend, and random numbers to cut by.
pub struct Asker {
    lent: Lent,
    random: Random,
}

/// Asks one of our ways in, and says how its answer is not the expected one.
type Question = fn(&mut Asker, &Case, &Expected) -> Result<(), String>;

/// The ways in.
const QUESTIONS: [(&str, Question); 5] = [
    ("read", questions::read),
    ("structs", questions::structs),
    ("parts", questions::parts),
    ("feed cut", fed::random_cuts),
    ("feed bytes", fed::byte_by_byte),
];

pub fn compare(total: &mut Total) {
    for (function, question) in QUESTIONS {
        for (seed, (inputs, make, asked)) in FAMILIES.iter().enumerate() {
            if asked.contains(&function) {
                let fill = |tally: &mut Tally| count(*make, seed as u64, question, tally);
                total.family(function, inputs, fill);
            }
        }
    }
}

/// Counts the answers on a family: the random numbers of a family are the same for every way in.
fn count(make: Made, seed: u64, question: Question, tally: &mut Tally) {
    let mut asker = Asker { lent: Lent::new(), random: Random::seeded(1_000 + seed) };
    make(&mut Random::seeded(seed), &mut |case| {
        tally.count(case.drom, verdict(&mut asker, case, question));
    });
}

fn verdict(asker: &mut Asker, case: &Case, question: Question) -> Verdict {
    let expected = expected(case, oracle::read(case.list, case.drom));
    let found = expected.and_then(|expected| {
        question(asker, case, &expected)?;
        Ok(expected.difference)
    });
    match found {
        Ok(None) => Verdict::Same,
        Ok(Some(difference)) => Verdict::Listed(difference),
        Err(words) => {
            asker.lent = Lent::new();
            Verdict::Differs(format!("{}: {words}", case_line("read", case)))
        }
    }
}
