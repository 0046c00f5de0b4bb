//! Both answers on one dump, one above the other, for somebody at a bench.

use crate::differences::{Case, Expected, expected};
use crate::oracle::{self, Answer, End};
use crate::said::{self, Recorded};
use crate::text::unhex;
use crate::whole::LENT;
use drom::{ROOM, Report};
use std::process::ExitCode;

/// Ends with status 0 if the two agree or differ as listed, with 1 if they differ otherwise, and with 2
/// if the dump or the list cannot be read.
pub fn show(dump: &str, list: Option<&str>) -> ExitCode {
    let drom = match std::fs::read(dump) {
        Ok(drom) => drom,
        Err(error) => return cannot_read(dump, &error.to_string()),
    };
    let Some(list) = list.map_or(Some(Vec::new()), list_of) else {
        return cannot_read(list.unwrap_or_default(), "neither adapters in hex nor a file of them");
    };
    let case = Case { list: &list, drom: &drom, room: ROOM };
    println!("{dump}: {} bytes, {} adapters listed", drom.len(), list.len() / 2);
    let mut lent = vec![LENT; ROOM];
    let report = drom::read(&list, &drom, &mut lent);
    let answer = oracle::read(&list, &drom);
    print_headers(&case, &answer, &report);
    print_entries(&case, &answer, &report, &lent);
    print_ends(&case, &answer, &report);
    print_verdict(expected(&case, answer), &report, &lent)
}

fn cannot_read(what: &str, words: &str) -> ExitCode {
    eprintln!("beside/show: {what}: {words}");
    ExitCode::from(2)
}

/// A file of adapter bytes, or the bytes in hex.
fn list_of(word: &str) -> Option<Vec<u8>> {
    std::fs::read(word).ok().or_else(|| unhex(word))
}

/// Prints what the Rust says and what we say, one above the other.
fn print_both(rust: &str, ours: &str) {
    let mark = if rust == ours { "" } else { "   <- not the same" };
    println!("    Rust  {rust}");
    println!("    ours  {ours}{mark}");
}

fn print_headers(case: &Case, answer: &Answer, report: &Report) {
    println!("\nHeader");
    let refused = "not read".to_string();
    let rust = match answer {
        Answer::Error(_) => refused.clone(),
        Answer::Walk(walk) => header(&walk.report),
    };
    let ours = if matches!(report.number, 1..=5) { refused } else { header(report) };
    print_both(&rust, &ours);
    if !case.list.len().is_multiple_of(2) {
        println!(
            "    The list has an odd number of bytes; the Rust was asked without the last one."
        );
    }
}

fn header(report: &Report) -> String {
    let Report { version, length, start, crc32, crc8, uuid, .. } = report;
    let verdict = |good: bool| if good { "right" } else { "WRONG" };
    let first = format!(
        "version {version}, length {length}, body from {start}; CRC32 {crc32:08x} is {}",
        verdict(report.crc32_good)
    );
    if *version < 3 {
        let good = verdict(report.crc8_good);
        format!("{first}; CRC8 {crc8:02x} is {good}, UUID {uuid:016x}")
    } else {
        format!("{first}; no CRC8 and no UUID (version 3 and later)")
    }
}

fn print_entries(case: &Case, answer: &Answer, report: &Report, lent: &[u8]) {
    println!("\nEntries (offset, length, bytes)");
    let rust = match answer {
        Answer::Error(_) => Vec::new(),
        Answer::Walk(walk) => oracle::entries(case.list, case.drom, walk),
    };
    let ours = said::records(&lent[..report.bytes.min(lent.len())]);
    if rust.is_empty() && ours.is_empty() {
        println!("    none");
    }
    for n in 0..rust.len().max(ours.len()) {
        print_entry(case.drom, rust.get(n), ours.get(n));
    }
}

fn print_entry(drom: &[u8], rust: Option<&Recorded>, ours: Option<&Recorded>) {
    let place = |entry: &Recorded| (entry.offset, entry.length);
    if let Some((offset, length)) = rust.or(ours).map(place) {
        println!("{offset:>5} {length:>4}  {}", bytes_at(drom, offset, length));
    }
    if let (Some(rust), Some(ours)) = (rust, ours)
        && place(rust) != place(ours)
    {
        println!("          ours is at {}, {} bytes   <- not the same", ours.offset, ours.length);
    }
    let words = |entry: Option<&Recorded>| match entry {
        None => "no such entry".to_string(),
        Some(Recorded { said: None, .. }) => "a record that makes no sense".to_string(),
        Some(Recorded { said: Some(said), .. }) => said.to_string(),
    };
    print_both(&words(rust), &words(ours));
}

/// The bytes there in hex, as many as a line takes.
fn bytes_at(drom: &[u8], offset: usize, length: usize) -> String {
    let bytes = drom.get(offset..).unwrap_or_default();
    let bytes = &bytes[..length.min(bytes.len())];
    let shown: Vec<String> = bytes.iter().take(24).map(|byte| format!("{byte:02x}")).collect();
    let more = if bytes.len() > shown.len() { " .." } else { "" };
    format!("{}{more}", shown.join(" "))
}

fn print_ends(case: &Case, answer: &Answer, report: &Report) {
    println!("\nEnd");
    if report.offset > 0 {
        let (at, length) = (report.offset, case.drom.len());
        println!("{at:>5}       {}", bytes_at(case.drom, at, length));
    }
    let rust = match answer {
        Answer::Error(words) => format!("refused: {words:?}"),
        Answer::Walk(walk) => match &walk.end {
            End::Returns => format!("read to its end, {} entries", walk.places.len()),
            End::Panics(offset, words) => format!("panics at {offset}: {words}"),
            End::Loops(offset) => format!("gives the entry at {offset} for ever"),
        },
    };
    let ours = match report.number {
        0 => format!("read to its end, {} entries", report.records),
        1..=5 => format!("refusal {}: {}", report.number, meaning(report.number)),
        number => format!("refusal {number} at {}: {}", report.offset, meaning(number)),
    };
    println!("    Rust  {rust}\n    ours  {ours}");
}

fn meaning(number: u8) -> &'static str {
    match number {
        1 => "fewer than 16 bytes, not even a header",
        2 => "the length in the header is not the size of the dump",
        3 => "a Thunderbolt 3 header (version below 3) in fewer than 22 bytes",
        4 => "the record buffer is below 16,368 bytes",
        5 => "the list of adapters has an odd number of bytes",
        6 => "an entry of length 0 there",
        7 => "the entry there runs past the end",
        8 => "the entry there is too short for its kind",
        9 => "the name there has no closing zero byte",
        10 => "the name there is not UTF-8",
        11 => "the UTF-16 text there has an odd number of bytes",
        _ => "a number that a whole DROM never has",
    }
}

fn print_verdict(expected: Result<Expected, String>, report: &Report, lent: &[u8]) -> ExitCode {
    println!();
    match expected {
        Ok(expected) if is_met(&expected, report, lent) => {
            print_agreement(&expected);
            ExitCode::SUCCESS
        }
        Ok(_) => {
            println!(
                "THE TWO DIFFER, and no listed difference explains it. Do not release this sheet."
            );
            ExitCode::FAILURE
        }
        Err(words) => {
            println!("THE RUST does what no listed difference explains: {words}.");
            ExitCode::FAILURE
        }
    }
}

/// Whether report and every byte of the buffer are as expected.
fn is_met(expected: &Expected, report: &Report, lent: &[u8]) -> bool {
    let (front, rest) = lent.split_at(expected.records.len());
    expected.report == *report && front == expected.records && rest.iter().all(|&b| b == LENT)
}

fn print_agreement(expected: &Expected) {
    match expected.difference {
        None => println!("The two agree, in the report and in every record."),
        Some(difference) => {
            println!("The two differ as docs/DIFFERENCES.md lists.");
            println!("    {}", difference.words());
            if expected.report.start > 0 {
                println!("In everything before that they agree: header, verdicts and records.");
            }
        }
    }
}
