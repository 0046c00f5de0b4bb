//! Counts answers, and prints a line for each family of inputs.

use crate::differences::{Difference, LISTED};
use crate::inputs::Random;
use crate::text::hex;
use std::fmt::Debug;

/// What comes of one input.
pub enum Verdict {
    Same,
    /// A difference that docs/DIFFERENCES.md lists, with the answer that it prescribes.
    Listed(Difference),
    /// Any other difference, with both answers in words.
    Differs(String),
}

/// The verdict on two answers that ought to be the same.
pub fn same<A: PartialEq + Debug>(rust: &A, ours: &A) -> Verdict {
    if rust == ours {
        Verdict::Same
    } else {
        Verdict::Differs(format!("Rust {rust:02x?}, ours {ours:02x?}"))
    }
}

/// Prints a line of the table.
fn print_line(function: &str, inputs: &str, [compared, same, listed, differed]: [&str; 4]) {
    println!("{function:<11} {inputs:<64} {compared:>11} {same:>11} {listed:>11} {differed:>8}");
}

#[derive(Default)]
struct Counts {
    compared: u64,
    same: u64,
    differed: u64,
    /// By the place in `LISTED`.
    listed: [u64; LISTED.len()],
}

impl Counts {
    fn add(&mut self, more: &Counts) {
        self.compared += more.compared;
        self.same += more.same;
        self.differed += more.differed;
        for (sum, count) in self.listed.iter_mut().zip(more.listed) {
            *sum += count;
        }
    }

    fn print(&self, function: &str, inputs: &str) {
        let counts = [self.compared, self.same, self.listed.iter().sum(), self.differed];
        let counts = counts.map(with_commas);
        print_line(function, inputs, counts.each_ref().map(String::as_str));
    }

    /// A line for each listed difference that came up.
    fn print_listed(&self) {
        for (count, line) in self.listed.iter().zip(LISTED) {
            if *count > 0 {
                let words = line.difference.words();
                println!("            {words:<86} {:>11}", with_commas(*count));
            }
        }
    }
}

/// The answers on one family of inputs.
#[derive(Default)]
pub struct Tally {
    counts: Counts,
    smallest: Option<(Vec<u8>, String)>,
}

impl Tally {
    pub fn count(&mut self, input: &[u8], verdict: Verdict) {
        self.counts.compared += 1;
        match verdict {
            Verdict::Same => self.counts.same += 1,
            Verdict::Listed(difference) => self.counts.listed[difference.place()] += 1,
            Verdict::Differs(answers) => self.differs(input, answers),
        }
    }

    fn differs(&mut self, input: &[u8], answers: String) {
        self.counts.differed += 1;
        let is_smaller = |held: &[u8]| (input.len(), input) < (held.len(), held);
        if self.smallest.as_ref().is_none_or(|(held, _)| is_smaller(held)) {
            self.smallest = Some((input.to_vec(), answers));
        }
    }
}

/// A family of inputs: its name, and what counts the answers.
pub type Family = (&'static str, fn(&mut Random, &mut Tally));

/// The answers on all the inputs.
#[derive(Default)]
pub struct Total {
    counts: Counts,
    /// The families that were asked so far, of whichever function.
    asked: Vec<String>,
}

impl Total {
    /// Prints the head of the table.
    pub fn start() -> Self {
        print_line("function", "inputs", ["compared", "same", "listed", "differed"]);
        Total::default()
    }

    pub fn families(&mut self, function: &str, families: &[Family], random: &mut Random) {
        for (inputs, fill) in families {
            self.family(function, inputs, |tally| fill(random, tally));
        }
    }

    /// Has `fill` count the answers on a family of inputs, and prints its line. Its listed differences
    /// are told the first time that it is asked: they are the same for every function.
    pub fn family(&mut self, function: &str, inputs: &str, fill: impl FnOnce(&mut Tally)) {
        let mut tally = Tally::default();
        fill(&mut tally);
        tally.counts.print(function, inputs);
        if !self.asked.iter().any(|asked| asked == inputs) {
            tally.counts.print_listed();
            self.asked.push(inputs.to_string());
        }
        if let Some((input, answers)) = &tally.smallest {
            let count = input.len();
            let front = hex(&input[..count.min(16)]);
            println!("            smallest such input, {count} bytes, {front}..: {answers}");
        }
        self.counts.add(&tally.counts);
    }

    /// Prints the sums, and says whether anything differed.
    pub fn end(self) -> bool {
        println!();
        self.counts.print("all", "");
        self.counts.print_listed();
        println!(
            "listed: a difference of docs/DIFFERENCES.md, with exactly the answer prescribed there"
        );
        println!("differed: any other difference");
        self.counts.differed > 0
    }
}

/// A number with a comma before each three digits.
fn with_commas(number: u64) -> String {
    let digits = number.to_string();
    let mut text = String::new();
    for (place, digit) in digits.chars().enumerate() {
        if place > 0 && (digits.len() - place).is_multiple_of(3) {
            text.push(',');
        }
        text.push(digit);
    }
    text
}
