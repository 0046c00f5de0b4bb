//! DROMs as docks have them, and others that are large or all noise.

use super::entries::entry;
use super::{fill_header, list, plain, roomy, set_length};
use crate::differences::Case;
use crate::inputs::Random;
use drom::ROOM;

const DOCKS: usize = 40_000;
const NOISE: usize = 60_000;
const LARGE: usize = 300;

/// A DROM of about that many bytes, of entries that are accepted whatever the adapters are.
pub fn mixed(random: &mut Random, version: u8, size: usize) -> Vec<u8> {
    let start = if version < 3 { 22 } else { 16 };
    let mut body = Vec::new();
    loop {
        let entry = entry(random);
        if start + body.len() + entry.len() > size {
            break;
        }
        body.extend(entry);
    }
    body.resize(size - start, 1);
    let mut drom = plain(version, &body);
    fill_header(random, &mut drom);
    drom
}

pub fn dock(random: &mut Random) -> Vec<u8> {
    let version = random.pick(&[0, 1, 2, 3, 3, 3, 4, 255]);
    let size = 300 + random.below(301);
    mixed(random, version, size)
}

/// As many entries as so many bytes can have.
pub fn one_byte_entries(size: usize) -> Vec<u8> {
    plain(3, &vec![1; size - 16])
}

pub fn docks(random: &mut Random, each: &mut dyn FnMut(&Case)) {
    for _ in 0..DOCKS {
        let list = list(random);
        each(&roomy(&list, &dock(random)));
    }
}

pub fn noise(random: &mut Random, each: &mut dyn FnMut(&Case)) {
    for _ in 0..NOISE {
        let size = random.pick(&[17, 22, 30, 60, 300]) + random.below(30);
        let mut drom = random.bytes(size);
        drom[13] %= 5;
        set_length(&mut drom);
        for byte in drom.iter_mut().skip(16) {
            if random.once_in(2) {
                *byte %= 16;
            }
        }
        let list = list(random);
        each(&roomy(&list, &drom));
    }
}

pub fn large(random: &mut Random, each: &mut dyn FnMut(&Case)) {
    for size in [16, 17, 411, 4_107, 4_108] {
        each(&roomy(&[], &one_byte_entries(size)));
        let mut refused = one_byte_entries(size);
        *refused.last_mut().expect("a header") = 0;
        each(&roomy(&[], &refused));
    }
    for _ in 0..LARGE {
        let size = if random.once_in(3) { 4_108 } else { 2_000 + random.below(2_108) };
        let list = list(random);
        let version = random.pick(&[2, 3]);
        each(&roomy(&list, &mixed(random, version, size)));
    }
}

pub fn small_rooms(random: &mut Random, each: &mut dyn FnMut(&Case)) {
    for _ in 0..1_000 {
        let drom = dock(random);
        for room in [0, 1, 4, 1_000, ROOM - 1, ROOM, ROOM + 1, ROOM + 32] {
            each(&Case { list: &[], drom: &drom, room });
        }
        each(&Case { list: &[], drom: &drom[..random.below(16)], room: random.below(ROOM) });
    }
}

pub fn odd_lists(random: &mut Random, each: &mut dyn FnMut(&Case)) {
    for _ in 0..3_000 {
        let mut list = list(random);
        list.push(random.byte());
        let drom = dock(random);
        each(&roomy(&list, &drom));
        each(&roomy(&list, &drom[..random.below(30)]));
        each(&Case { list: &list, drom: &drom, room: random.below(ROOM) });
    }
}

/// The DROM with a last entry that runs past the end.
pub fn with_refused_end(drom: &[u8]) -> Vec<u8> {
    let mut drom = drom.to_vec();
    drom.push(5);
    set_length(&mut drom);
    drom
}
