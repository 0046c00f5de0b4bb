//! The library's functions as C sees them. A slice is a pointer and a length.

use crate::Adapter;

/// The sizes of what the library fills in: numbers of eight bytes, the low byte first.
pub const REPORT: usize = 96;
pub const PART: usize = 16;

/// Answered where a report, a state or a part of fewer bytes is lent. The wrappers lend whole ones.
pub const LENT_TOO_SHORT: u8 = 255;

unsafe extern "C" {
    pub fn drom_read(
        list: *const u8,
        list_count: usize,
        drom: *const u8,
        drom_count: usize,
        records: *mut u8,
        records_count: usize,
        report: *mut u8,
        report_count: usize,
    ) -> u8;
    pub fn drom_read_listed(
        list: *const Adapter,
        list_count: usize,
        drom: *const u8,
        drom_count: usize,
        records: *mut u8,
        records_count: usize,
        report: *mut u8,
        report_count: usize,
    ) -> u8;

    pub fn drom_open(
        list: *const u8,
        list_count: usize,
        announced: usize,
        records: *const u8,
        records_count: usize,
        state: *mut u8,
        state_count: usize,
    ) -> u8;
    pub fn drom_feed(
        state: *mut u8,
        state_count: usize,
        piece: *const u8,
        piece_count: usize,
        records: *mut u8,
        records_count: usize,
    ) -> u8;
    pub fn drom_finish(
        state: *const u8,
        state_count: usize,
        report: *mut u8,
        report_count: usize,
    ) -> u8;
    pub fn drom_record_count(state: *const u8, state_count: usize) -> usize;
    pub fn drom_record_bytes(state: *const u8, state_count: usize) -> usize;

    pub fn drom_header(drom: *const u8, count: usize, part: *mut u8, part_count: usize) -> u8;
    pub fn drom_body(drom: *const u8, count: usize, part: *mut u8, part_count: usize) -> u8;
    pub fn drom_whole(drom: *const u8, count: usize, part: *mut u8, part_count: usize) -> u8;
    pub fn drom_entry(
        list: *const u8,
        list_count: usize,
        drom: *const u8,
        drom_count: usize,
        n: usize,
        part: *mut u8,
        part_count: usize,
    ) -> u8;

    pub fn drom_crc8(bytes: *const u8, count: usize) -> u8;
    pub fn drom_crc32(bytes: *const u8, count: usize) -> u32;
    pub fn drom_crc32_more(register: u32, bytes: *const u8, count: usize) -> u32;
    pub fn drom_is_utf8(bytes: *const u8, count: usize) -> u8;
    pub fn drom_utf16_ascii(bytes: *const u8, count: usize, out: *mut u8, room: usize) -> usize;
}
