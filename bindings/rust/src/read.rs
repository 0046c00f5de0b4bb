//! A DROM that is lent whole.

use crate::ffi;

/// An adapter of the router: 1 lane, 2 DisplayPort in, 3 DisplayPort out, 4 PCIe up, 5 PCIe down,
/// any other kind "other".
#[repr(C)]
#[derive(Clone, Copy, Debug, PartialEq, Eq)]
pub struct Adapter {
    pub number: u8,
    pub kind: u8,
}

/// What is said of a DROM. For the numbers 1 to 5, 13 and 18 all but the number is zero or `false`;
/// for 6 to 11 the header's values and verdicts are told, and the records of the entries before.
#[derive(Clone, Copy, Debug, Default, PartialEq, Eq)]
pub struct Report {
    /// 0 accepted, else why it was refused.
    pub number: u8,
    /// Where the refused entry stands in the DROM, for the numbers 6 to 11, and else 0.
    pub offset: usize,
    pub version: u8,
    /// The size from the version on, as the header says it.
    pub length: usize,
    /// Where the body starts: 22 for a version below 3, else 16.
    pub start: usize,
    /// The CRC32 that is stored.
    pub crc32: u32,
    /// Whether it is the right one.
    pub crc32_good: bool,
    /// The CRC8 that is stored, for a version below 3, and else 0.
    pub crc8: u8,
    /// For a version below 3, and else 0.
    pub uuid: u64,
    /// Whether the CRC8 is the UUID's, for a version below 3, and else `false`.
    pub crc8_good: bool,
    /// How many records stand at the record buffer's front.
    pub records: usize,
    /// How many bytes these records have.
    pub bytes: usize,
}

impl Report {
    pub(crate) fn from_bytes(bytes: &[u8; ffi::REPORT]) -> Self {
        let (numbers, _) = bytes.as_chunks::<8>();
        let number = |place: usize| u64::from_le_bytes(numbers[place]);
        Report {
            number: number(0) as u8,
            offset: number(1) as usize,
            version: number(2) as u8,
            length: number(3) as usize,
            start: number(4) as usize,
            crc32: number(5) as u32,
            crc32_good: number(6) != 0,
            crc8: number(7) as u8,
            uuid: number(8),
            crc8_good: number(9) != 0,
            records: number(10) as usize,
            bytes: number(11) as usize,
        }
    }
}

/// Reads a DROM, with its adapters as bytes: number, kind, number, kind, and so on. The first adapter
/// with a number counts.
///
/// The report's number is 5, 4, 1, 2, 3 in this order, then 6 to 11 for the first entry that is
/// refused, else 0. The records of the entries before stand at the front of `records`; every other
/// byte of `records` is as it was, and for 1 to 5 all are.
pub fn read(list: &[u8], drom: &[u8], records: &mut [u8]) -> Report {
    let mut report = [0; ffi::REPORT];
    // SAFETY: each pointer and length are those of one slice, lent until the call is over; the library
    // reads and writes nothing outside of them.
    let answer = unsafe {
        ffi::drom_read(
            list.as_ptr(),
            list.len(),
            drom.as_ptr(),
            drom.len(),
            records.as_mut_ptr(),
            records.len(),
            report.as_mut_ptr(),
            report.len(),
        )
    };
    debug_assert_ne!(answer, ffi::LENT_TOO_SHORT);
    Report::from_bytes(&report)
}

/// The same as [`read`], with the adapters as records. 5 is not given.
pub fn read_listed(list: &[Adapter], drom: &[u8], records: &mut [u8]) -> Report {
    let mut report = [0; ffi::REPORT];
    // SAFETY: as for `read`; an `Adapter` is two bytes, number and kind, in C's layout.
    let answer = unsafe {
        ffi::drom_read_listed(
            list.as_ptr(),
            list.len(),
            drom.as_ptr(),
            drom.len(),
            records.as_mut_ptr(),
            records.len(),
            report.as_mut_ptr(),
            report.len(),
        )
    };
    debug_assert_ne!(answer, ffi::LENT_TOO_SHORT);
    Report::from_bytes(&report)
}
