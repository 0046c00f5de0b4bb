//! Sizes, versions and lengths.

use super::{fill_header, roomy, set_length};
use crate::differences::Case;
use crate::inputs::Random;

const VERSIONS: [u8; 8] = [0, 1, 2, 3, 4, 5, 128, 255];

pub fn sizes(random: &mut Random, each: &mut dyn FnMut(&Case)) {
    for size in (0..=40).chain(4_096..=4_112) {
        for version in VERSIONS {
            for _ in 0..4 {
                let mut drom = of_size(random, size, version);
                each(&roomy(&[], &drom));
                wrong_lengths(&mut drom, each);
            }
        }
    }
}

/// The right length, an accepted body mostly, and a header of random bytes.
fn of_size(random: &mut Random, size: usize, version: u8) -> Vec<u8> {
    let byte = if random.once_in(4) { random.byte() } else { 1 };
    let mut drom = vec![byte; size];
    if size >= 22 {
        drom[13] = version;
        drom[15] = 0;
        set_length(&mut drom);
        fill_header(random, &mut drom);
    } else if size > 13 {
        drom[13] = version;
        set_length(&mut drom);
    }
    drom
}

/// One less, one more, a bit that is ignored, and a bit that is not.
fn wrong_lengths(drom: &mut [u8], each: &mut dyn FnMut(&Case)) {
    if drom.len() < 16 {
        return;
    }
    let right = u16::from_le_bytes([drom[14], drom[15]]);
    for length in [right.wrapping_sub(1), right.wrapping_add(1), right ^ 0x8000, right ^ 0x0800] {
        drom[14..16].copy_from_slice(&length.to_le_bytes());
        each(&roomy(&[], drom));
    }
}
