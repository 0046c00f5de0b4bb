//! The families of DROMs. Each is the same at every run, and is made anew for every way in.

mod damage;
mod docks;
mod entries;
mod headers;
mod kinds;
mod short;
mod texts;

pub use damage::damage;
pub use docks::{dock, mixed, one_byte_entries, with_refused_end};

use crate::differences::Case;
use crate::inputs::Random;
use drom::ROOM;
use tbtools::util;

/// Hands each case of a family over.
pub type Made = fn(&mut Random, &mut dyn FnMut(&Case));

/// The ways in that are asked.
const ALL: &[&str] = &["read", "structs", "parts", "feed cut", "feed bytes"];
const BUT_STRUCTS: &[&str] = &["read", "parts", "feed cut", "feed bytes"];
const READ: &[&str] = &["read"];

/// Name, what makes it, and what is asked: of the largest, `read` alone; half an adapter cannot be had
/// as a struct.
pub const FAMILIES: [(&str, Made, &[&str]); 14] = [
    ("every body of 0 to 2 bytes, versions 2 and 3, no list and a list", short::to_two, ALL),
    ("every body of 3 bytes, with a list", short::three, READ),
    ("every kind byte, L from 1 to 24, every listed kind, three ends", kinds::near_least, ALL),
    ("every kind byte, every L, random bytes and lists", kinds::every_length, ALL),
    ("DPTX, every byte 3, L from 2 to 22", kinds::dptx, ALL),
    ("sizes to 40 and about 4,108, right and wrong lengths", headers::sizes, ALL),
    ("ASCII names of border bytes of UTF-8", texts::utf8, ALL),
    ("texts of border units of UTF-16, even and odd", texts::utf16, ALL),
    ("docks of 300 to 600 bytes, random lists", docks::docks, ALL),
    ("damaged docks: bits, bytes, lengths, cuts, splices", damage::damaged, ALL),
    ("random bytes, small and large, with the right length", docks::noise, ALL),
    ("2,000 to 4,108 bytes: mixed, and the most records", docks::large, ALL),
    ("docks and small record rooms", docks::small_rooms, ALL),
    ("docks and lists of odd length", docks::odd_lists, BUT_STRUCTS),
];

/// A header of zeros but for version and length, and a body.
pub fn plain(version: u8, body: &[u8]) -> Vec<u8> {
    let start = if version < 3 { 22 } else { 16 };
    let mut drom = vec![0; start];
    drom.extend(body);
    drom[13] = version;
    set_length(&mut drom);
    drom
}

/// Has the length in the header be the right one, where there is a header and a length for it.
pub fn set_length(drom: &mut [u8]) {
    if let Some(length) = drom.len().checked_sub(13)
        && drom.len() >= 16
    {
        let [low, high] = (length as u16).to_le_bytes();
        drom[14] = low;
        drom[15] = drom[15] & 0xf0 | high & 0x0f;
    }
}

/// Has both checksums be the right ones.
pub fn set_sums(drom: &mut [u8]) {
    if drom[13] < 3 {
        drom[0] = util::crc8(&drom[1..=8]);
    }
    let crc32 = util::crc32(&drom[13..]).to_le_bytes();
    drom[9..=12].copy_from_slice(&crc32);
}

/// Fills in what a header has beside version and length: mostly with right checksums.
pub fn fill_header(random: &mut Random, drom: &mut [u8]) {
    for place in (0..=12).chain(16..if drom[13] < 3 { 22 } else { 16 }) {
        drom[place] = random.byte();
    }
    drom[15] |= random.byte() & 0xf0;
    if !random.once_in(4) {
        set_sums(drom);
    }
}

/// Up to 40 adapters: repeated numbers, numbers above 63, and kinds outside of 1 to 5 among them.
pub fn list(random: &mut Random) -> Vec<u8> {
    let count = random.below(41);
    let most = random.pick(&[8, 24, 64, 80, 256]);
    let adapter = |_| [random.below(most) as u8, random.pick(&KINDS)];
    (0..count).flat_map(adapter).collect()
}

const KINDS: [u8; 16] = [0, 1, 1, 1, 2, 2, 3, 3, 4, 4, 5, 5, 6, 7, 129, 255];

/// A list that has each number below 64 once, the kinds going round: 1 to 7, 0.
pub fn all_numbers() -> Vec<u8> {
    (0..64).flat_map(|number| [number, (number + 1) % 8]).collect()
}

/// The case of a DROM and a list, with room enough.
pub fn roomy<'a>(list: &'a [u8], drom: &'a [u8]) -> Case<'a> {
    Case { list, drom, room: ROOM }
}
