//! The differences that docs/DIFFERENCES.md lists, and what our answer has to be in view of the Rust's.

use crate::oracle::{Answer, End, Place, Walk};
use drom::{ROOM, Report};

#[derive(Clone, Copy, PartialEq, Eq)]
pub enum Difference {
    ZeroLength,
    PastEnd,
    TooShort,
    ShortName,
    NoZero,
    NotUtf8,
    OddText,
    EmptyBody,
    SmallRoom,
    OddList,
    ShortHeader,
    AloneOddText,
    AloneNoRoom,
}

/// A line of docs/DIFFERENCES.md: what it is about, what the Rust does, and what ours is.
pub struct Line {
    pub difference: Difference,
    pub what: &'static str,
    pub rust: &'static str,
    pub ours: &'static str,
}

const fn line(
    difference: Difference,
    what: &'static str,
    rust: &'static str,
    ours: &'static str,
) -> Line {
    Line { difference, what, rust, ours }
}

pub const LISTED: [Line; 13] = [
    line(Difference::ZeroLength, "entry length 0", "repeats for ever", "refusal 6"),
    line(Difference::PastEnd, "entry runs past the end", "panics", "refusal 7"),
    line(Difference::TooShort, "entry too short for its kind", "panics", "refusal 8"),
    line(
        Difference::ShortName,
        "ASCII name of L = 2",
        "panics for want of a zero byte",
        "refusal 8",
    ),
    line(Difference::NoZero, "ASCII name without a zero byte", "panics", "refusal 9"),
    line(Difference::NotUtf8, "name that is not UTF-8", "panics", "refusal 10"),
    line(Difference::OddText, "UTF-16 part of odd length", "panics", "refusal 11"),
    line(Difference::EmptyBody, "empty body", "panics", "accepted, without records"),
    line(
        Difference::SmallRoom,
        "record buffer below 16,368 bytes",
        "has no such case",
        "refusal 4",
    ),
    line(Difference::OddList, "adapter bytes of odd count", "has no such case", "refusal 5"),
    line(
        Difference::ShortHeader,
        "TBT3 with fewer than 22 bytes",
        "says \"DROM size mismatch\"",
        "refusal 3",
    ),
    line(
        Difference::AloneOddText,
        "UTF-16 text of an odd byte count, by itself",
        "panics",
        "a refusal",
    ),
    line(
        Difference::AloneNoRoom,
        "UTF-16 text, too little room lent",
        "has no such case",
        "a refusal",
    ),
];

impl Difference {
    /// Its place in `LISTED`.
    pub fn place(self) -> usize {
        let is_this = |line: &Line| line.difference == self;
        LISTED.iter().position(is_this).expect("every difference is listed")
    }

    /// In words, as docs/DIFFERENCES.md has them.
    pub fn words(self) -> String {
        let Line { what, rust, ours, .. } = &LISTED[self.place()];
        format!("{what}: the Rust {rust}; ours: {ours}")
    }

    /// Of an entry with that number, where the Rust stops with these words.
    fn of_number(number: u8, words: Option<&str>) -> Self {
        match number {
            6 => Difference::ZeroLength,
            7 => Difference::PastEnd,
            8 if words.is_some_and(has_no_zero) => Difference::ShortName,
            8 => Difference::TooShort,
            9 => Difference::NoZero,
            10 => Difference::NotUtf8,
            _ => Difference::OddText,
        }
    }
}

/// A DROM to read, with a list of adapters and so many bytes for records.
#[derive(Clone, Copy)]
pub struct Case<'a> {
    pub list: &'a [u8],
    pub drom: &'a [u8],
    pub room: usize,
}

/// What our answer has to be: the Rust's, but for the listed difference.
pub struct Expected {
    pub report: Report,
    pub places: Vec<Place>,
    pub records: Vec<u8>,
    pub difference: Option<Difference>,
}

impl Expected {
    /// A report of zeros but for the number, and no records.
    fn number(number: u8, difference: Option<Difference>) -> Self {
        let report = Report { number, ..Report::default() };
        Expected { report, places: Vec::new(), records: Vec::new(), difference }
    }

    fn walk(walk: Walk, number: u8, offset: usize, difference: Option<Difference>) -> Self {
        let report = Report { number, offset, ..walk.report };
        Expected { report, places: walk.places, records: walk.records, difference }
    }
}

/// What our answer has to be; or, in words, how the Rust is not what the differences say.
pub fn expected(case: &Case, answer: Answer) -> Result<Expected, String> {
    if !case.list.len().is_multiple_of(2) {
        return Ok(Expected::number(5, Some(Difference::OddList)));
    }
    if case.room < ROOM {
        return Ok(Expected::number(4, Some(Difference::SmallRoom)));
    }
    match answer {
        Answer::Error(words) => of_error(case.drom, &words),
        Answer::Walk(walk) => of_walk(case, walk),
    }
}

fn of_error(drom: &[u8], words: &str) -> Result<Expected, String> {
    match words {
        "DROM too small" => Ok(Expected::number(1, None)),
        "DROM size mismatch" if is_short_header(drom) => {
            Ok(Expected::number(3, Some(Difference::ShortHeader)))
        }
        "DROM size mismatch" => Ok(Expected::number(2, None)),
        other => Err(format!("the Rust has an error of other words: {other}")),
    }
}

/// Whether the length is right, but fewer than 22 bytes are there for a version below 3.
fn is_short_header(drom: &[u8]) -> bool {
    let length = usize::from(u16::from_le_bytes([drom[14], drom[15]])) % 4_096;
    length + 13 == drom.len() && drom[13] < 3 && drom.len() < 22
}

fn of_walk(case: &Case, walk: Walk) -> Result<Expected, String> {
    let (at, words) = match &walk.end {
        End::Returns => return Ok(Expected::walk(walk, 0, 0, None)),
        End::Loops(at) => (*at, None),
        End::Panics(at, words) => (*at, Some(words.clone())),
    };
    if at == case.drom.len() && walk.report.start == at {
        return Ok(Expected::walk(walk, 0, 0, Some(Difference::EmptyBody)));
    }
    match refusal(case, at) {
        Some(number) if is_cause(number, words.as_deref()) => {
            let difference = Difference::of_number(number, words.as_deref());
            Ok(Expected::walk(walk, number, at, Some(difference)))
        }
        number => {
            let words = words.as_deref().unwrap_or("loops");
            Err(format!("the Rust stops at {at} ({words}), where document 01 has {number:?}"))
        }
    }
}

/// Whether the Rust stops for the reason that the number stands for. A name of two bytes is too short,
/// and the Rust says there that it has no zero byte.
fn is_cause(number: u8, words: Option<&str>) -> bool {
    let Some(words) = words else { return number == 6 };
    let is_index = words.starts_with("index out of bounds") || words.starts_with("range ");
    match number {
        7 => is_index,
        8 => is_index || has_no_zero(words),
        9 => has_no_zero(words),
        10 => words.contains("Utf8Error"),
        11 => words == "bytes not aligned by 16-bits",
        _ => false,
    }
}

fn has_no_zero(words: &str) -> bool {
    words.contains("FromBytesUntilNul")
}

/// The number that document 01 has for the entry at that offset, if it is refused.
fn refusal(case: &Case, at: usize) -> Option<u8> {
    let rest = &case.drom[at..];
    let length = usize::from(rest[0]);
    if length == 0 {
        return Some(6);
    }
    if length > rest.len() {
        return Some(7);
    }
    let entry = &rest[..length];
    if length >= 2 && length < least(entry, case.list) { Some(8) } else { unfit(entry) }
}

/// The least length of an entry of that kind.
fn least(entry: &[u8], list: &[u8]) -> usize {
    let kind = entry[1];
    if kind & 0xc0 == 0xc0 {
        return 2;
    }
    if kind & 0x80 != 0 {
        return match listed_kind(list, kind & 0x3f) {
            2 | 3 => 5,
            1 => 4,
            4 | 5 => 3,
            _ => 2,
        };
    }
    match kind & 0x3f {
        0x01 | 0x02 | 0x08 | 0x10 => 3,
        0x09 => 14,
        0x0a | 0x0e => 4,
        0x0f => 5 + usize::from(entry.get(3).map_or(0, |byte| byte & 0x0f)),
        _ => 2,
    }
}

/// The kind of the first adapter with that number.
fn listed_kind(list: &[u8], number: u8) -> u8 {
    list.chunks_exact(2).find(|adapter| adapter[0] == number).map_or(0, |adapter| adapter[1])
}

/// 9, 10 or 11 for an entry that is long enough.
fn unfit(entry: &[u8]) -> Option<u8> {
    let kind = entry.get(1)?;
    if kind & 0x80 != 0 {
        return None;
    }
    match kind & 0x3f {
        0x01 | 0x02 => match entry[2..].iter().position(|&byte| byte == 0) {
            None => Some(9),
            Some(zero) => std::str::from_utf8(&entry[2..2 + zero]).is_err().then_some(10),
        },
        0x0a | 0x0c | 0x0d => (!entry.len().is_multiple_of(2)).then_some(11),
        _ => None,
    }
}
