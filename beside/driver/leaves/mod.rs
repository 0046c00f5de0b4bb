//! The checksums and texts: the Rust's functions beside ours, one by one.

mod crc;
mod time;
mod utf16;
mod utf8;

pub use time::measure;
pub use utf8::BYTES;
pub use utf16::UNITS;

use crate::inputs::Random;
use crate::tally::Total;

pub fn compare(random: &mut Random, total: &mut Total) {
    crc::compare(random, total);
    utf8::compare(random, total);
    utf16::compare(random, total);
}
