//! UTF-16 as ASCII: the Rust's `String`, and our text at the front of a buffer that is lent.

use crate::differences::Difference;
use crate::inputs::{Random, bytes_of, every};
use crate::rust;
use crate::tally::{Family, Tally, Total, Verdict};
use drom::TextRefusal;
use tbtools::util;

const RANDOM_STRINGS: usize = 3_000_000;
const ODD_STRINGS: usize = 50_000;
const ROOMS_STRINGS: usize = 50_000;

/// The units next to each border between what is shown, what is dropped and the halves of a pair.
pub const UNITS: [u16; 20] = [
    0x0000, 0x0020, 0x0021, 0x0041, 0x007e, 0x007f, 0x0080, 0x00ff, 0x0100, 0x4100, 0xd7ff, 0xd800,
    0xd83d, 0xdbff, 0xdc00, 0xde00, 0xdfff, 0xe000, 0xfffd, 0xffff,
];

const FAMILIES: [Family; 6] = [
    ("every string of 0 units and of 1", singles),
    ("every unit before and after each border unit", beside_border),
    ("every string of 3 border units", three_units),
    ("random strings of 0 to 12 units, with room and more", strings),
    ("random odd numbers of bytes, 1 to 25, with any room", odd),
    ("random strings of 1 to 12 units, with every room up to enough", rooms),
];

pub fn compare(random: &mut Random, total: &mut Total) {
    total.families("utf16_ascii", &FAMILIES, random);
}

fn singles(_: &mut Random, tally: &mut Tally) {
    count_units(&[], 0, tally);
    for unit in 0..=u16::MAX {
        count_units(&[unit], 0, tally);
    }
}

fn beside_border(_: &mut Random, tally: &mut Tally) {
    for unit in 0..=u16::MAX {
        for border in UNITS {
            count_units(&[unit, border], 1, tally);
            count_units(&[border, unit], 1, tally);
        }
    }
}

fn three_units(_: &mut Random, tally: &mut Tally) {
    every(&UNITS, 3, |units| count_units(units, 0, tally));
}

fn strings(random: &mut Random, tally: &mut Tally) {
    for _ in 0..RANDOM_STRINGS {
        let length = random.below(13);
        let units = random_units(random, length);
        count_units(&units, random.below(4), tally);
    }
}

fn odd(random: &mut Random, tally: &mut Tally) {
    for _ in 0..ODD_STRINGS {
        let length = 2 * random.below(13) + 1;
        let bytes = random.bytes(length);
        count(&bytes, random.below(length + 1), tally);
    }
}

fn rooms(random: &mut Random, tally: &mut Tally) {
    for _ in 0..ROOMS_STRINGS {
        let length = 1 + random.below(12);
        let bytes = bytes_of(&random_units(random, length));
        for room in 0..=length {
            count(&bytes, room, tally);
        }
    }
}

/// Border units, with one of any kind at every fourth place or so.
fn random_units(random: &mut Random, length: usize) -> Vec<u16> {
    let unit = |_| match random.below(4) {
        0 => random.unit(),
        _ => random.pick(&UNITS),
    };
    (0..length).map(unit).collect()
}

/// Counts the answer on the units, with the room that they need and more.
fn count_units(units: &[u16], more: usize, tally: &mut Tally) {
    count(&bytes_of(units), units.len() + more, tally);
}

/// Counts the answer on the bytes, with that room. Two differences are listed: at an odd number of
/// bytes the Rust panics, and we say so; and the Rust takes memory of its own, where we are lent a
/// buffer, and say so if it is too short.
fn count(bytes: &[u8], room: usize, tally: &mut Tally) {
    let rust = rust::ask(|| util::bytes_to_utf16_ascii(bytes)).ok();
    let (wanted, verdict) = match &rust {
        None => {
            let odd = Left::nothing(Err(TextRefusal::OddLength), room);
            (odd, Verdict::Listed(Difference::AloneOddText))
        }
        Some(_) if room < bytes.len() / 2 => {
            let short = Left::nothing(Err(TextRefusal::NoRoom), room);
            (short, Verdict::Listed(Difference::AloneNoRoom))
        }
        Some(text) => (Left::text(text, room), Verdict::Same),
    };
    let left = Left::ours(bytes, room);
    let verdict = if left == wanted { verdict } else { differs(rust.as_deref(), &left) };
    tally.count(bytes, verdict);
}

fn differs(rust: Option<&str>, left: &Left) -> Verdict {
    let rust = rust.map_or("panics".to_string(), |text| format!("{text:?}"));
    Verdict::Differs(format!("Rust {rust}, ours {left}"))
}

/// What a call leaves: its answer, and the buffer. Only the first `room` bytes of it were lent.
#[derive(PartialEq)]
struct Left {
    answer: Result<usize, TextRefusal>,
    buffer: Vec<u8>,
    room: usize,
}

impl Left {
    /// An answer, and the buffer as it was before.
    fn nothing(answer: Result<usize, TextRefusal>, room: usize) -> Self {
        let buffer = vec![0xa5; room + 8];
        Left { answer, buffer, room }
    }

    /// A text at the front of the buffer, and its length.
    fn text(text: &str, room: usize) -> Self {
        let mut left = Left::nothing(Ok(text.len()), room);
        left.buffer[..text.len()].copy_from_slice(text.as_bytes());
        left
    }

    fn ours(bytes: &[u8], room: usize) -> Self {
        let mut left = Left::nothing(Ok(0), room);
        left.answer = drom::utf16_ascii(bytes, &mut left.buffer[..room]);
        left
    }
}

impl std::fmt::Display for Left {
    fn fmt(&self, out: &mut std::fmt::Formatter) -> std::fmt::Result {
        write!(out, "{:?}", self.answer)?;
        let (lent, behind) = self.buffer.split_at(self.room);
        write!(out, " with {lent:02x?} lent, {behind:02x?} behind it")
    }
}
