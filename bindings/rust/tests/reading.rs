//! A DROM that is lent whole.

mod common;

use common::{LENT, Random, buffer, drom, random_body};
use drom::{Adapter, ROOM, Report, read, read_listed};

/// A report of zeros but for the number.
fn refused(number: u8) -> Report {
    Report { number, ..Report::default() }
}

/// The records of a body that has no list, with the number and the offset.
fn records_of(body: &[u8]) -> (u8, usize, Vec<u8>) {
    let mut records = buffer();
    let report = read(&[], &drom(3, body), &mut records);
    assert!(records[report.bytes..].iter().all(|&byte| byte == LENT));
    (report.number, report.offset, records[..report.bytes].to_vec())
}

#[test]
fn examples() {
    assert_eq!(records_of(&[]), (0, 0, vec![]));
    assert_eq!(records_of(&[0x01]), (0, 0, vec![0x00, 0x00, 0x80, 0x08]));
    assert_eq!(records_of(&[3, 8, 6]), (0, 0, vec![0x0a, 0x00, 0x80, 0x18, 0x02, 0x01]));
    assert_eq!(records_of(&[3, 8, 3]), (0, 0, vec![0x0a, 0x00, 0x80, 0x18, 0xff, 0x00]));
    assert_eq!(records_of(&[0]), (6, 16, vec![]));
    assert_eq!(records_of(&[3, 8]), (7, 16, vec![]));
    assert_eq!(records_of(&[2, 8]), (8, 16, vec![]));
    assert_eq!(records_of(&[3, 1, 0x41]), (9, 16, vec![]));
    assert_eq!(records_of(&[4, 1, 0xff, 0]), (10, 16, vec![]));
    assert_eq!(records_of(&[3, 0x0c, 0x41]), (11, 16, vec![]));
    assert_eq!(records_of(&[1, 3, 1, 0x41]), (9, 17, vec![0x00, 0x00, 0x80, 0x08]));
}

#[test]
fn report_has_the_header() {
    let mut whole = drom(2, &[1]);
    whole[1..9].copy_from_slice(&[8, 7, 6, 5, 4, 3, 2, 1]);
    whole[0] = drom::crc8(&whole[1..9]);
    let crc32 = drom::crc32(&whole[13..]);
    whole[9..13].copy_from_slice(&crc32.to_le_bytes());
    let expected = Report {
        version: 2,
        length: 10,
        start: 22,
        crc32,
        crc32_good: true,
        crc8: whole[0],
        uuid: 0x0102_0304_0506_0708,
        crc8_good: true,
        records: 1,
        bytes: 4,
        ..Report::default()
    };
    assert_eq!(read(&[], &whole, &mut buffer()), expected);
    whole[1] ^= 1;
    whole[22] = 0;
    let report = read(&[], &whole, &mut buffer());
    assert_eq!((report.number, report.offset, report.records), (6, 22, 0));
    assert!(!report.crc8_good && !report.crc32_good);
}

#[test]
fn nothing_lent() {
    assert_eq!(read(&[], &[], &mut []), refused(4));
    assert_eq!(read(&[7], &[], &mut []), refused(5));
    assert_eq!(read(&[], &[], &mut buffer()), refused(1));
    assert_eq!(read_listed(&[], &[], &mut []), refused(4));
    assert_eq!(read_listed(&[], &[], &mut buffer()), refused(1));
}

#[test]
fn refusals_come_in_their_order_and_write_nothing() {
    let good = drom(3, &[1]);
    let cases: [(&[u8], &[u8], usize, u8); 6] = [
        (&[1], &good[..3], 0, 5),
        (&[1, 1, 2], &good, ROOM, 5),
        (&[], &good[..3], ROOM - 1, 4),
        (&[], &good[..15], ROOM, 1),
        (&[], &good[..16], ROOM, 2),
        (&[], &drom(2, &[])[..21], ROOM, 2),
    ];
    for (list, drom, room, number) in cases {
        let mut records = vec![LENT; room];
        assert_eq!(read(list, drom, &mut records), refused(number));
        assert!(records.iter().all(|&byte| byte == LENT));
    }
    let mut short = drom(2, &[])[..21].to_vec();
    short[14] = 8;
    assert_eq!(read(&[], &short, &mut buffer()), refused(3));
}

#[test]
fn sizes_up_to_the_most() {
    let mut records = buffer();
    let report = read(&[], &drom(3, &[1; 4_092]), &mut records);
    assert_eq!((report.number, report.records, report.bytes), (0, 4_092, ROOM));
    let mut longer = vec![0xff; 4_109];
    longer[13] = 3;
    assert_eq!(read(&[], &longer, &mut records), refused(2));
    assert_eq!(read(&[], &vec![0xff; 100_000], &mut records), refused(2));
}

#[test]
fn first_adapter_with_a_number_counts() {
    let body = [3, 0x85, 0xf9];
    let tag = |list: &[u8]| {
        let mut records = buffer();
        read(list, &drom(3, &body), &mut records);
        records[0]
    };
    assert_eq!(tag(&[]), 1);
    assert_eq!(tag(&[5, 5]), 6);
    assert_eq!(tag(&[5, 4, 5, 5]), 5);
    assert_eq!(tag(&[69, 5]), 1);
    assert_eq!(tag(&[5, 0]), 1);
    assert_eq!(tag(&[5, 255]), 1);
}

#[test]
fn structs_as_bytes() {
    let random = &mut Random::new(1);
    for _ in 0..20_000 {
        let count = 2 * random.below(40);
        let list: Vec<u8> = (0..count).map(|n| random.below([80, 7][n % 2]) as u8).collect();
        let adapter = |pair: &[u8]| Adapter { number: pair[0], kind: pair[1] };
        let adapters: Vec<Adapter> = list.chunks(2).map(adapter).collect();
        let drom = drom(3, &random_body(random));
        let (mut by_bytes, mut by_structs) = (buffer(), buffer());
        let report = read(&list, &drom, &mut by_bytes);
        assert_eq!(read_listed(&adapters, &drom, &mut by_structs), report);
        assert_eq!(by_bytes, by_structs);
    }
}

#[test]
fn any_bytes_end_in_an_answer() {
    let random = &mut Random::new(2);
    for _ in 0..50_000 {
        let [list, size, more] = [9, 300, 100].map(|most| random.below(most));
        let (list, mut drom) = (random.bytes(list), random.bytes(size));
        if random.below(2) == 0 && size >= 16 {
            drom[14..16].copy_from_slice(&((size - 13) as u16).to_le_bytes());
        }
        let mut records = vec![LENT; ROOM - 50 + more];
        let report = read(&list, &drom, &mut records);
        assert!(report.number <= 11);
        assert!(records[report.bytes..].iter().all(|&byte| byte == LENT));
    }
}
