//! Every kind of entry, by its length.

use super::{list, plain, roomy};
use crate::differences::Case;
use crate::inputs::Random;

/// An entry by itself, one with another behind it, and one that lacks its last byte.
pub fn near_least(random: &mut Random, each: &mut dyn FnMut(&Case)) {
    for kind in 0..=u8::MAX {
        for length in 1..=24 {
            for listed in [None, Some(0), Some(1), Some(2), Some(3), Some(4), Some(5), Some(6)] {
                let list: Vec<u8> =
                    listed.map_or(Vec::new(), |listed| vec![63, 9, kind & 0x3f, listed]);
                let mut body = entry(random, kind, length);
                each(&roomy(&list, &plain(3, &body)));
                body.push(1);
                each(&roomy(&list, &plain(2, &body)));
                body.truncate(body.len() - 2);
                each(&roomy(&list, &plain(3, &body)));
            }
        }
    }
}

pub fn every_length(random: &mut Random, each: &mut dyn FnMut(&Case)) {
    for kind in 0..=u8::MAX {
        for length in 1..=u8::MAX {
            let mut body = entry(random, kind, length);
            body.extend([2, 0xc1, 1]);
            let list = list(random);
            each(&roomy(&list, &plain(random.pick(&[2, 3]), &body)));
        }
    }
}

pub fn dptx(random: &mut Random, each: &mut dyn FnMut(&Case)) {
    for counts in 0..=u8::MAX {
        for length in 2..=22 {
            let mut body = entry(random, 0x0f, length);
            if let Some(byte) = body.get_mut(3) {
                *byte = counts;
            }
            body.extend(entry(random, 0x4f, 25));
            each(&roomy(&[], &plain(3, &body)));
        }
    }
}

/// Random bytes of that kind and length, with zero bytes at times, so that names end.
fn entry(random: &mut Random, kind: u8, length: u8) -> Vec<u8> {
    let mut entry = random.bytes(length.into());
    let letters = random.once_in(2);
    for byte in entry.iter_mut().skip(2) {
        if letters {
            *byte = random.pick(b"az~ \0");
        }
    }
    entry[0] = length;
    if let Some(byte) = entry.get_mut(1) {
        *byte = kind;
    }
    entry
}
