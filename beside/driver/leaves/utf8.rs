//! Whether bytes are UTF-8: ours, and `std::str::from_utf8`, by which the Rust's `CStr::to_str`
//! decides.

use crate::inputs::{Random, all_bytes, every};
use crate::tally::{Family, Tally, Total, same};

const RANDOM_STRINGS: usize = 3_000_000;

/// The bytes next to each border between a right and a wrong byte of a character.
pub const BYTES: [u8; 25] = [
    0x00, 0x41, 0x7f, 0x80, 0x8f, 0x90, 0x9f, 0xa0, 0xbf, 0xc0, 0xc1, 0xc2, 0xdf, 0xe0, 0xe1, 0xec,
    0xed, 0xee, 0xef, 0xf0, 0xf1, 0xf3, 0xf4, 0xf5, 0xff,
];

/// The characters next to each border between two lengths or two rules for the second byte.
const CHARACTERS: &str = "\0\u{7f}\u{80}\u{7ff}\u{800}\u{fff}\u{1000}\u{d7ff}\u{e000}\u{ffff}\
    \u{10000}\u{3ffff}\u{40000}\u{fffff}\u{100000}\u{10ffff}";

const FAMILIES: [Family; 6] = [
    ("every string of 0 to 3 bytes", short),
    ("every character", characters),
    ("every string of 4 border bytes", four_bytes),
    ("ASCII of every length to 64 with a border byte at each place", ascii_but_one),
    ("random strings of 0 to 12 border bytes", random_bytes),
    ("random border characters, 0 to 6, half with one byte changed", random_characters),
];

pub fn compare(random: &mut Random, total: &mut Total) {
    total.families("is_utf8", &FAMILIES, random);
}

fn count(bytes: &[u8], tally: &mut Tally) {
    let rust = std::str::from_utf8(bytes).is_ok();
    tally.count(bytes, same(&rust, &drom::is_utf8(bytes)));
}

fn short(_: &mut Random, tally: &mut Tally) {
    for length in 0..=3 {
        every(&all_bytes(), length, |bytes| count(bytes, tally));
    }
}

fn characters(_: &mut Random, tally: &mut Tally) {
    for character in '\0'..=char::MAX {
        count(character.encode_utf8(&mut [0; 4]).as_bytes(), tally);
    }
}

fn four_bytes(_: &mut Random, tally: &mut Tally) {
    every(&BYTES, 4, |bytes| count(bytes, tally));
}

fn ascii_but_one(_: &mut Random, tally: &mut Tally) {
    for length in 1..=64 {
        for place in 0..length {
            for byte in BYTES {
                let mut bytes = vec![b'x'; length];
                bytes[place] = byte;
                count(&bytes, tally);
            }
        }
    }
}

fn random_bytes(random: &mut Random, tally: &mut Tally) {
    for _ in 0..RANDOM_STRINGS {
        let length = random.below(13);
        let bytes: Vec<u8> = (0..length).map(|_| random.pick(&BYTES)).collect();
        count(&bytes, tally);
    }
}

fn random_characters(random: &mut Random, tally: &mut Tally) {
    let pool: Vec<char> = CHARACTERS.chars().collect();
    for _ in 0..RANDOM_STRINGS {
        let length = random.below(7);
        let text: String = (0..length).map(|_| random.pick(&pool)).collect();
        let mut bytes = text.into_bytes();
        if length > 0 && random.below(2) == 0 {
            let place = random.below(bytes.len());
            bytes[place] = random.pick(&BYTES);
        }
        count(&bytes, tally);
    }
}
