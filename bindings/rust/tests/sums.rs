//! Checksums and texts.

use drom::{CRC32_START, TextRefusal, crc8, crc32, crc32_more, is_utf8, utf16_ascii};

#[test]
fn sums() {
    assert_eq!((crc8(&[]), crc8(&[0xff])), (0xff, 0x00));
    assert_eq!((crc32(&[]), crc32(b"123456789")), (0, 0xe306_9283));
    let register = [&b"1234"[..], b"", b"56789"].into_iter().fold(CRC32_START, crc32_more);
    assert_eq!(!register, 0xe306_9283);
}

#[test]
fn utf8() {
    assert!(is_utf8(b""));
    assert!(is_utf8("Dock 14 \u{b2}".as_bytes()));
    assert!(!is_utf8(&[0xff]));
    assert!(!is_utf8(&[0xed, 0xa0, 0x80]));
}

#[test]
fn utf16() {
    let mut out = [0xa5; 4];
    assert_eq!(utf16_ascii(&[0x00, 0xd8, 0x41, 0x00], &mut out), Ok(2));
    assert_eq!(out, [b'.', b'A', 0xa5, 0xa5]);
    let mut out = [0xa5; 4];
    assert_eq!(utf16_ascii(&[0x41], &mut out), Err(TextRefusal::OddLength));
    assert_eq!(utf16_ascii(&[0x41; 10], &mut out), Err(TextRefusal::NoRoom));
    assert_eq!(utf16_ascii(&[0x41; 11], &mut []), Err(TextRefusal::OddLength));
    assert_eq!(utf16_ascii(&[], &mut []), Ok(0));
    assert_eq!(out, [0xa5; 4]);
}
