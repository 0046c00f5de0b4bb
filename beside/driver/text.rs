//! Cases and answers as text: words set apart by a space, bytes in hex, `-` for none.

use crate::differences::Case;
use crate::whole::LENT;
use drom::Report;

pub fn hex(bytes: &[u8]) -> String {
    if bytes.is_empty() {
        return "-".to_string();
    }
    bytes.iter().map(|byte| format!("{byte:02x}")).collect()
}

/// The bytes of a word in hex; spaces between them may stand in one that comes from a command line.
pub fn unhex(word: &str) -> Option<Vec<u8>> {
    let digits: Vec<u8> = word.bytes().filter(|byte| *byte != b' ').collect();
    if digits == *b"-" {
        return Some(Vec::new());
    }
    let (pairs, []) = digits.as_chunks::<2>() else { return None };
    let byte = |pair: &[u8; 2]| {
        let [high, low] = pair.map(|digit| char::from(digit).to_digit(16));
        Some((high? * 16 + low?) as u8)
    };
    pairs.iter().map(byte).collect()
}

pub fn case_line(word: &str, case: &Case) -> String {
    format!("{word} {} {} {}", hex(case.list), hex(case.drom), case.room)
}

pub fn report(report: &Report) -> String {
    let Report { number, offset, version, length, start, crc32, crc8, uuid, .. } = report;
    let [crc32_good, crc8_good] = [report.crc32_good, report.crc8_good].map(u8::from);
    format!(
        "{number} {offset} {version} {length} {start} {crc32:08x} {crc32_good} {crc8:02x} {uuid:016x} \
         {crc8_good} {} {}",
        report.records, report.bytes
    )
}

/// A lent buffer without its tail of untouched bytes.
pub fn buffer(buffer: &[u8]) -> String {
    let end = buffer.iter().rposition(|&byte| byte != LENT).map_or(0, |last| last + 1);
    hex(&buffer[..end])
}
