//! Parts of the caller's own DROM, as ranges of it: `&drom[drom::body(drom)]` are the body's bytes.

use crate::ffi;
use std::ops::Range;

type Ask = unsafe extern "C" fn(*const u8, usize, *mut u8, usize) -> u8;

/// The header: the first 22 bytes for a version below 3, else 16. Empty for a refused header, 1 to 3.
pub fn header(drom: &[u8]) -> Range<usize> {
    ask(ffi::drom_header, drom)
}

/// What follows the header, also if an entry is refused. Empty for a refused header.
pub fn body(drom: &[u8]) -> Range<usize> {
    ask(ffi::drom_body, drom)
}

/// All bytes. Empty for a refused header.
pub fn whole(drom: &[u8]) -> Range<usize> {
    ask(ffi::drom_whole, drom)
}

/// The n-th entry, counted from 0, of those that are accepted with this list of adapters. Empty for a
/// refused header, a list with an odd number of bytes, and an n that is not below the record count.
pub fn entry(list: &[u8], drom: &[u8], n: usize) -> Range<usize> {
    let mut part = [0; ffi::PART];
    // SAFETY: each pointer and length are those of one slice, lent until the call is over; the library
    // reads and writes nothing outside of them.
    let answer = unsafe {
        ffi::drom_entry(
            list.as_ptr(),
            list.len(),
            drom.as_ptr(),
            drom.len(),
            n,
            part.as_mut_ptr(),
            part.len(),
        )
    };
    debug_assert_ne!(answer, ffi::LENT_TOO_SHORT);
    range(&part)
}

fn ask(function: Ask, drom: &[u8]) -> Range<usize> {
    let mut part = [0; ffi::PART];
    // SAFETY: as for `entry`.
    let answer = unsafe { function(drom.as_ptr(), drom.len(), part.as_mut_ptr(), part.len()) };
    debug_assert_ne!(answer, ffi::LENT_TOO_SHORT);
    range(&part)
}

/// A part is its offset and its length.
fn range(part: &[u8; ffi::PART]) -> Range<usize> {
    let (numbers, _) = part.as_chunks::<8>();
    let [from, length] = [0, 1].map(|place: usize| u64::from_le_bytes(numbers[place]) as usize);
    from..from + length
}
