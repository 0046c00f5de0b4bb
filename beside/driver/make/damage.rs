//! Docks that came to harm.

use super::docks::dock;
use super::{list, roomy, set_length};
use crate::differences::Case;
use crate::inputs::Random;

const DOCKS: usize = 6_000;
/// Damaged copies of each.
const COPIES: usize = 16;

pub fn damaged(random: &mut Random, each: &mut dyn FnMut(&Case)) {
    let mut other = dock(random);
    for _ in 0..DOCKS {
        let drom = dock(random);
        let list = list(random);
        for _ in 0..COPIES {
            let copy = damage(random, &drom, &other);
            each(&roomy(&list, &copy));
        }
        other = drom;
    }
}

/// A copy with a harm or two. Its length is set right again mostly, so that the entries are reached.
pub fn damage(random: &mut Random, drom: &[u8], other: &[u8]) -> Vec<u8> {
    let mut copy = drom.to_vec();
    for _ in 0..1 + random.below(2) {
        match random.below(6) {
            0 => flip_bit(random, &mut copy),
            1 => copy.truncate(random.below(copy.len() + 1)),
            2 => change_length(random, &mut copy),
            3 => splice(random, &mut copy, other),
            4 => change_byte(random, &mut copy),
            _ => insert_or_remove(random, &mut copy),
        }
    }
    if !random.once_in(8) {
        set_length(&mut copy);
    }
    copy
}

fn place(random: &mut Random, drom: &[u8]) -> Option<usize> {
    (!drom.is_empty()).then(|| random.below(drom.len()))
}

fn flip_bit(random: &mut Random, drom: &mut [u8]) {
    if let Some(place) = place(random, drom) {
        drom[place] ^= 1 << random.below(8);
    }
}

fn change_byte(random: &mut Random, drom: &mut [u8]) {
    if let Some(place) = place(random, drom) {
        drom[place] = random.pick(&[0, 1, 2, 3, 127, 128, 255]);
    }
}

fn insert_or_remove(random: &mut Random, drom: &mut Vec<u8>) {
    if let Some(place) = place(random, drom) {
        if random.once_in(2) {
            drom.remove(place);
        } else {
            drom.insert(place, random.byte());
        }
    }
}

/// Where the entries start, as far as they can be told apart.
fn starts(drom: &[u8]) -> Vec<usize> {
    let mut starts = Vec::new();
    let mut at = if drom.get(13).is_some_and(|version| *version < 3) { 22 } else { 16 };
    while let Some(&length) = drom.get(at).filter(|length| **length > 0) {
        starts.push(at);
        at += usize::from(length);
    }
    starts
}

/// Changes the length byte of an entry: by one, to zero, or to anything.
fn change_length(random: &mut Random, drom: &mut [u8]) {
    let starts = starts(drom);
    if starts.is_empty() {
        return;
    }
    let at = random.pick(&starts);
    let length = drom[at];
    let any = random.byte();
    drom[at] = random.pick(&[length.wrapping_sub(1), length.wrapping_add(1), 0, 2, any]);
}

/// Puts a run of another dock's entries in at an entry's start.
fn splice(random: &mut Random, drom: &mut Vec<u8>, other: &[u8]) {
    let (into, of) = (starts(drom), starts(other));
    if into.is_empty() || of.len() < 2 {
        return;
    }
    let at = random.pick(&into);
    let from = random.below(of.len() - 1);
    let to = (from + 1 + random.below(4)).min(of.len() - 1);
    drom.splice(at..at, other[of[from]..of[to]].iter().copied());
}
