//! How long a call takes, the Rust's and ours by turns.

use crate::inputs::Random;
use crate::rounds::{by_turns, timed};
use std::hint::black_box;
use tbtools::util;

const WORDS: &str = "
Time of a call: medians of many short rounds, the Rust's and ours by turns. Inputs and buffers
are the same at each call, and are not cleared between calls. The Rust's utf16_ascii makes and
drops a String, which is part of its function; ours writes to a buffer that is lent.";

pub fn measure(random: &mut Random) {
    println!("{WORDS}");
    println!("function     bytes         Rust         ours  ours / Rust");
    let bytes = random.bytes(4_095);
    for count in [64, 500, 4_095] {
        crc32(&bytes[..count]);
    }
    for count in [8, 500] {
        crc8(&bytes[..count]);
    }
    for count in [16, 250] {
        is_utf8(&letters(count).collect::<Vec<u8>>());
    }
    for count in [60, 250] {
        utf16_ascii(&letters(count / 2).flat_map(|letter| [letter, 0]).collect::<Vec<u8>>());
    }
}

/// The alphabet, again and again.
fn letters(count: usize) -> impl Iterator<Item = u8> {
    (b'a'..=b'z').cycle().take(count)
}

fn crc32(bytes: &[u8]) {
    let rust = || util::crc32(black_box(bytes));
    let ours = || drom::crc32(black_box(bytes));
    print_line("crc32", bytes, by_turns([timed(rust), timed(ours)]));
}

fn crc8(bytes: &[u8]) {
    let rust = || util::crc8(black_box(bytes));
    let ours = || drom::crc8(black_box(bytes));
    print_line("crc8", bytes, by_turns([timed(rust), timed(ours)]));
}

fn is_utf8(bytes: &[u8]) {
    let rust = || std::str::from_utf8(black_box(bytes)).is_ok();
    let ours = || drom::is_utf8(black_box(bytes));
    print_line("is_utf8", bytes, by_turns([timed(rust), timed(ours)]));
}

fn utf16_ascii(bytes: &[u8]) {
    let mut out = vec![0xa5; bytes.len() / 2];
    let rust = || util::bytes_to_utf16_ascii(black_box(bytes));
    let ours = || drom::utf16_ascii(black_box(bytes), black_box(&mut out));
    print_line("utf16_ascii", bytes, by_turns([timed(rust), timed(ours)]));
}

fn print_line(function: &str, bytes: &[u8], [rust, ours]: [f64; 2]) {
    let count = bytes.len();
    let ratio = ours / rust;
    println!("{function:<11} {count:>6} {rust:>9.1} ns {ours:>9.1} ns {ratio:>12.2}");
}
