//! A fixed list of cases with the Rust's answers, to be replayed where there is no Rust.

mod cases;

use crate::differences::{Case, Difference, Expected, LISTED, expected};
use crate::oracle;
use crate::text::{case_line, hex, report};
use cases::Owned;

const HEAD: &str = "\
# The customer's Rust's answers, written by beside/sample; beside/README.md says how. CASE => ANSWER:
#     read LIST DROM ROOM => NUMBER OFFSET VERSION LENGTH START CRC32 GOOD CRC8 UUID GOOD RECORDS BYTES BUFFER
# Records and report are laid out by document 01, from the values that the Rust returns.
";

/// Prints the cases with their answers: first where the Rust returns, then by listed difference.
pub fn print() {
    let answered: Vec<(Owned, Expected)> = cases::all().into_iter().map(answer).collect();
    check_tags(&answered);
    print!("{HEAD}");
    println!("\n# The Rust returns, and its answer is this one. For 1 and 2 it returns an error.");
    print_those(&answered, None);
    for line in LISTED {
        if answered.iter().any(|(_, expected)| expected.difference == Some(line.difference)) {
            println!("\n# {}.", line.difference.words());
            println!("# {}", origin(line.difference));
            print_those(&answered, Some(line.difference));
        }
    }
}

/// Where an answer comes from that the Rust does not give.
fn origin(difference: Difference) -> &'static str {
    match difference {
        Difference::SmallRoom | Difference::OddList | Difference::ShortHeader => {
            "The answer is the one that docs/DIFFERENCES.md prescribes."
        }
        _ => {
            "docs/DIFFERENCES.md prescribes number and offset; header, verdicts and records are the Rust's."
        }
    }
}

/// Prints the cases alone.
pub fn print_cases() {
    for case in cases::all() {
        println!("{}", case_line("read", &case.borrow()));
    }
}

fn answer(case: Owned) -> (Owned, Expected) {
    let borrowed = case.borrow();
    let expected = expected(&borrowed, oracle::read(borrowed.list, borrowed.drom));
    let expected =
        expected.unwrap_or_else(|words| panic!("{}: {words}", case_line("read", &borrowed)));
    (case, expected)
}

fn print_those(answered: &[(Owned, Expected)], difference: Option<Difference>) {
    for (case, expected) in answered.iter().filter(|(_, e)| e.difference == difference) {
        let case: Case = case.borrow();
        let (report, records) = (report(&expected.report), hex(&expected.records));
        println!("{} => {report} {records}", case_line("read", &case));
    }
}

/// Every tag is there, and every listed difference of a whole DROM.
fn check_tags(answered: &[(Owned, Expected)]) {
    for tag in 0..=18 {
        let has_tag = |expected: &Expected| {
            let starts = expected
                .places
                .iter()
                .scan(0, |start, place| Some(std::mem::replace(start, place.recorded)));
            starts.into_iter().any(|start| expected.records[start] == tag)
        };
        assert!(answered.iter().any(|(_, e)| has_tag(e)), "no case has tag {tag}");
    }
    for number in 0..=11 {
        let is_there = answered.iter().any(|(_, e)| e.report.number == number);
        assert!(is_there, "no case has number {number}");
    }
}
