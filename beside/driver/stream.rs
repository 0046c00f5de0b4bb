//! Answers cases from standard input, a line each. README.md says how they are written.

use crate::differences::Case;
use crate::oracle::{self, Answer, End};
use crate::text::{buffer, hex, report, unhex};
use crate::whole::{LENT, adapters};
use drom::Feed;
use std::io::{self, BufRead, Write};
use std::ops::Range;

/// The largest room that is lent here.
const MOST_ROOM: usize = 1 << 20;

/// An answer to the words of a case, or `None` for words that cannot be read.
type Answerer = fn(&[&str]) -> Option<String>;

/// Answers every line, and says whether all could be read. Empty lines and notes (`#`) go through.
pub fn answer_all(answer: Answerer) -> io::Result<bool> {
    let mut out = io::BufWriter::new(io::stdout().lock());
    let mut all_read = true;
    for line in io::stdin().lock().lines() {
        let line = line?;
        if line.is_empty() || line.starts_with('#') {
            writeln!(out, "{line}")?;
            continue;
        }
        let answer = answer(&line.split(' ').collect::<Vec<_>>());
        all_read &= answer.is_some();
        writeln!(out, "{}", answer.as_deref().unwrap_or("malformed"))?;
    }
    out.flush()?;
    Ok(all_read)
}

/// The Rust's answer. It is lent no buffer, so that the room does not matter to it.
pub fn oracle(words: &[&str]) -> Option<String> {
    let ["read", list, drom, room] = words else { return None };
    let (list, drom, _) = (unhex(list)?, unhex(drom)?, room_of(room)?);
    if !list.len().is_multiple_of(2) {
        return Some("none: half an adapter cannot be listed".to_string());
    }
    Some(match oracle::read(&list, &drom) {
        Answer::Error(words) => format!("error {words:?}"),
        Answer::Walk(walk) => match walk.end {
            End::Returns => format!("{} {}", report(&walk.report), hex(&walk.records)),
            End::Panics(offset, _) => format!("panic {offset}"),
            End::Loops(offset) => format!("loop {offset}"),
        },
    })
}

pub fn ours(words: &[&str]) -> Option<String> {
    match words {
        ["read", list, drom, room] => {
            let (list, drom) = (unhex(list)?, unhex(drom)?);
            ours_read(&Case { list: &list, drom: &drom, room: room_of(room)? })
        }
        ["structs", list, drom, room] => structs(&unhex(list)?, &unhex(drom)?, room_of(room)?),
        ["feed", list, announced, room, steps @ ..] => {
            feed(&unhex(list)?, announced.parse().ok()?, room_of(room)?, steps)
        }
        ["part", which, drom] => part(which, &unhex(drom)?),
        ["entry", list, drom, n] => {
            Some(place(drom::entry(&unhex(list)?, &unhex(drom)?, n.parse().ok()?)))
        }
        _ => None,
    }
}

fn room_of(word: &str) -> Option<usize> {
    word.parse().ok().filter(|room| *room <= MOST_ROOM)
}

fn ours_read(case: &Case) -> Option<String> {
    let mut lent = vec![LENT; case.room];
    let told = drom::read(case.list, case.drom, &mut lent);
    Some(format!("{} {}", report(&told), buffer(&lent)))
}

fn structs(list: &[u8], drom: &[u8], room: usize) -> Option<String> {
    if !list.len().is_multiple_of(2) {
        return None;
    }
    let mut lent = vec![LENT; room];
    let told = drom::read_listed(&adapters(list), drom, &mut lent);
    Some(format!("{} {}", report(&told), buffer(&lent)))
}

fn part(which: &str, drom: &[u8]) -> Option<String> {
    let range = match which {
        "header" => drom::header(drom),
        "body" => drom::body(drom),
        "whole" => drom::whole(drom),
        _ => return None,
    };
    Some(place(range))
}

fn place(range: Range<usize>) -> String {
    if range.is_empty() { "0 0".to_string() } else { format!("{} {}", range.start, range.end) }
}

fn feed(list: &[u8], announced: usize, room: usize, steps: &[&str]) -> Option<String> {
    let mut lent = vec![LENT; room];
    let (mut feed, _) = Feed::open(list, announced, &lent);
    let mut size = room;
    let mut answers = Vec::new();
    for step in steps {
        if let Some(word) = step.strip_prefix('@') {
            size = word.parse::<usize>().ok()?.min(room);
        } else if *step == "?" {
            answers.push(format!("finish {}", report(&feed.finish())));
        } else {
            let number = feed.feed(&unhex(step)?, &mut lent[..size]);
            let (records, bytes) = (feed.record_count(), feed.record_bytes());
            answers.push(format!("fed {number} {records} {bytes}"));
        }
    }
    answers.push(format!("buffer {}", buffer(&lent)));
    Some(answers.join("; "))
}
