//! CRC8, CRC32, and CRC32 of bytes that come in pieces.

use crate::inputs::{Random, all_bytes, every};
use crate::tally::{Family, Tally, Total, Verdict, same};
use std::fmt::Debug;
use tbtools::util;

/// The rounds over all the lengths, each with other bytes.
const ROUNDS: usize = 20;
const LONG: [usize; 3] = [4_095, 4_096, 65_536];
const CUT_STRINGS: usize = 200_000;

const IN_PIECES: [Family; 2] = [
    ("every length to 64, in two pieces, cut everywhere", two_pieces),
    ("random lengths to 2,000, in 1 to 9 random pieces", pieces),
];

pub fn compare(random: &mut Random, total: &mut Total) {
    compare_sum("crc8", util::crc8, drom::crc8, random, total);
    compare_sum("crc32", util::crc32, drom::crc32, random, total);
    total.families("crc32_more", &IN_PIECES, random);
}

fn compare_sum<A: PartialEq + Debug>(
    name: &str,
    rust: fn(&[u8]) -> A,
    ours: fn(&[u8]) -> A,
    random: &mut Random,
    total: &mut Total,
) {
    let count = |bytes: &[u8], tally: &mut Tally| {
        tally.count(bytes, same(&rust(bytes), &ours(bytes)));
    };
    total.family(name, "every string of 1 byte and of 2", |tally| {
        for length in 1..=2 {
            every(&all_bytes(), length, |bytes| count(bytes, tally));
        }
    });
    total.family(name, "random bytes, every length to 600, and 4,095, 4,096, 65,536", |tally| {
        for length in (0..ROUNDS).flat_map(|_| (0..=600).chain(LONG)) {
            count(&random.bytes(length), tally);
        }
    });
}

fn two_pieces(random: &mut Random, tally: &mut Tally) {
    for length in 0..=64 {
        let bytes = random.bytes(length);
        for cut in 0..=length {
            count_pieces(&bytes, &[cut], tally);
        }
    }
}

fn pieces(random: &mut Random, tally: &mut Tally) {
    let pool = random.bytes(4_096);
    for _ in 0..CUT_STRINGS {
        let length = random.below(2_001);
        let from = random.below(pool.len() - length);
        let cuts = random_cuts(random, length);
        count_pieces(&pool[from..from + length], &cuts, tally);
    }
}

/// Up to eight places to cut at, in order. Where two are the same, the piece between them is empty.
fn random_cuts(random: &mut Random, length: usize) -> Vec<usize> {
    let count = random.below(9);
    let mut cuts: Vec<usize> = (0..count).map(|_| random.below(length + 1)).collect();
    cuts.sort_unstable();
    cuts
}

fn count_pieces(bytes: &[u8], cuts: &[usize], tally: &mut Tally) {
    let verdict = match same(&util::crc32(bytes), &joined(bytes, cuts)) {
        Verdict::Differs(answers) => Verdict::Differs(format!("cut at {cuts:?}: {answers}")),
        verdict => verdict,
    };
    tally.count(bytes, verdict);
}

/// Our CRC32 of the bytes, cut into pieces.
fn joined(bytes: &[u8], cuts: &[usize]) -> u32 {
    let mut register = drom::CRC32_START;
    let mut from = 0;
    for &to in cuts.iter().chain([&bytes.len()]) {
        register = drom::crc32_more(register, &bytes[from..to]);
        from = to;
    }
    !register
}
