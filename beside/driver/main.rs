//! Runs the customer's Rust, which is the crate `tbtools`, beside our library, which is the crate
//! `drom`, on the same inputs. The first word says what for; the scripts of this folder give it.

mod bits;
mod differences;
mod inputs;
mod leaves;
mod make;
mod oracle;
mod record;
mod rounds;
mod rust;
mod said;
mod sample;
mod show;
mod stream;
mod tally;
mod text;
mod time;
mod whole;

use inputs::Random;
use std::process::ExitCode;
use tally::Total;

fn main() -> ExitCode {
    rust::silence_panics();
    let words: Vec<String> = std::env::args().skip(1).collect();
    let words: Vec<&str> = words.iter().map(String::as_str).collect();
    match words[..] {
        ["run"] => run(),
        ["time"] => {
            time::measure();
            ExitCode::SUCCESS
        }
        ["oracle"] => answered(stream::answer_all(stream::oracle)),
        ["ours"] => answered(stream::answer_all(stream::ours)),
        ["make"] => {
            sample::print_cases();
            ExitCode::SUCCESS
        }
        ["sample"] => {
            sample::print();
            ExitCode::SUCCESS
        }
        ["show", dump] => show::show(dump, None),
        ["show", dump, list] => show::show(dump, Some(list)),
        _ => {
            eprintln!("beside: run, time, oracle, ours, make, sample, or show DUMP [LIST]");
            ExitCode::from(2)
        }
    }
}

/// Ends with status 0 only if no answer differed.
fn run() -> ExitCode {
    let mut random = Random::new();
    let mut total = Total::start();
    leaves::compare(&mut random, &mut total);
    whole::compare(&mut total);
    ExitCode::from(u8::from(total.end()))
}

fn answered(result: std::io::Result<bool>) -> ExitCode {
    match result {
        Ok(true) => ExitCode::SUCCESS,
        Ok(false) => ExitCode::FAILURE,
        Err(error) => {
            eprintln!("beside: {error}");
            ExitCode::from(2)
        }
    }
}
