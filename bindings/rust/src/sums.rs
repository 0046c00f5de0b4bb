//! Checksums and texts.

use crate::ffi;

/// The register that [`crc32_more`] starts with.
pub const CRC32_START: u32 = 0xffff_ffff;

/// Why [`utf16_ascii`] wrote nothing.
#[derive(Clone, Copy, Debug, PartialEq, Eq)]
pub enum TextRefusal {
    /// The text has an odd number of bytes.
    OddLength,
    /// The buffer has fewer bytes than the text has units.
    NoRoom,
}

// SAFETY, of each call below: a pointer and its length are those of one slice, lent until the call is
// over, and the function neither reads nor writes anything outside of the slices.

/// The CRC8 of a header's UUID, of any bytes. `0xff` for none.
pub fn crc8(bytes: &[u8]) -> u8 {
    unsafe { ffi::drom_crc8(bytes.as_ptr(), bytes.len()) }
}

/// CRC-32C (RFC 3720). 0 for no bytes.
pub fn crc32(bytes: &[u8]) -> u32 {
    unsafe { ffi::drom_crc32(bytes.as_ptr(), bytes.len()) }
}

/// The register of [`crc32`] after further bytes. It starts as [`CRC32_START`]; the sum of all the
/// bytes is the last register with every bit turned.
pub fn crc32_more(register: u32, bytes: &[u8]) -> u32 {
    unsafe { ffi::drom_crc32_more(register, bytes.as_ptr(), bytes.len()) }
}

/// Whether the bytes are UTF-8 (RFC 3629).
pub fn is_utf8(bytes: &[u8]) -> bool {
    unsafe { ffi::drom_is_utf8(bytes.as_ptr(), bytes.len()) == 1 }
}

/// The characters 21 to 7E of a UTF-16 text, little-endian, with one '.' for each unpaired surrogate:
/// written to the front of `out`, and how many there are. Every other byte of `out` is as it was, and
/// after a refusal all are. `out` needs a byte for each two of `bytes`; an odd number is told first.
pub fn utf16_ascii(bytes: &[u8], out: &mut [u8]) -> Result<usize, TextRefusal> {
    const ODD: usize = usize::MAX;
    const SHORT: usize = usize::MAX - 1;
    let count =
        unsafe { ffi::drom_utf16_ascii(bytes.as_ptr(), bytes.len(), out.as_mut_ptr(), out.len()) };
    match count {
        ODD => Err(TextRefusal::OddLength),
        SHORT => Err(TextRefusal::NoRoom),
        count => Ok(count),
    }
}
