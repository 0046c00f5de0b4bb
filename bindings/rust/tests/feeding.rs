//! A DROM that comes in pieces.

mod common;

use common::{LENT, Random, buffer, drom, random_body};
use drom::{Feed, ROOM, Report, STATE, read};

fn refused(number: u8) -> Report {
    Report { number, ..Report::default() }
}

fn opened(size: usize) -> Feed {
    let (feed, number) = Feed::open(&[], size, &buffer());
    assert_eq!(number, 0);
    feed
}

#[test]
fn cut_anywhere_as_whole() {
    let random = &mut Random::new(3);
    for _ in 0..5_000 {
        let list = random.bytes(20);
        let drom = drom(random.below(5) as u8, &random_body(random));
        let (mut whole, mut fed) = (buffer(), buffer());
        let report = read(&list, &drom, &mut whole);
        let (mut feed, _) = Feed::open(&list, drom.len(), &fed);
        let mut rest = &drom[..];
        while !rest.is_empty() {
            let (piece, after) = rest.split_at(random.below(rest.len() + 1).min(30));
            assert_eq!(feed.feed(piece, &mut fed), 0);
            assert_eq!(fed[..feed.record_bytes()], whole[..feed.record_bytes()]);
            assert!(fed[feed.record_bytes()..].iter().all(|&byte| byte == LENT));
            rest = after;
        }
        assert_eq!(feed.finish(), report);
        assert_eq!((feed.record_count(), feed.record_bytes()), (report.records, report.bytes));
        assert_eq!(whole, fed);
    }
}

#[test]
fn a_record_comes_with_the_last_byte_of_its_entry() {
    let drom = drom(3, &[3, 8, 6, 1]);
    let mut records = buffer();
    let mut feed = opened(drom.len());
    let counts = drom.iter().map(|byte| {
        assert_eq!(feed.feed(&[*byte], &mut records), 0);
        feed.record_count()
    });
    let counts: Vec<usize> = counts.collect();
    assert_eq!(counts[15..], [0, 0, 0, 1, 2]);
}

#[test]
fn refused_openings_take_nothing() {
    let drom = drom(3, &[1]);
    let room = buffer();
    let cases: [(&[u8], usize, usize, u8); 5] = [
        (&[1], 17, ROOM, 5),
        (&[1], 3, 0, 5),
        (&[], 3, ROOM - 1, 4),
        (&[], 15, ROOM, 1),
        (&[], 0, ROOM, 1),
    ];
    for (list, size, lent, number) in cases {
        let (mut feed, told) = Feed::open(list, size, &room[..lent]);
        let before = feed;
        let mut records = buffer();
        assert_eq!(told, number);
        assert_eq!(feed.feed(&drom, &mut records), 12);
        assert_eq!(feed.feed(&[], &mut records), 0);
        assert_eq!(feed.feed(&[], &mut records[1..]), 4);
        assert_eq!((feed, feed.finish()), (before, refused(number)));
        assert_eq!((feed.record_count(), feed.record_bytes()), (0, 0));
        assert!(records.iter().all(|&byte| byte == LENT));
    }
}

#[test]
fn too_much_changes_nothing() {
    let drom = drom(3, &[3, 8, 6]);
    let mut records = buffer();
    let mut feed = opened(drom.len());
    assert_eq!(feed.feed(&drom[..10], &mut records), 0);
    let before = feed;
    assert_eq!(feed.feed(&[1; 100], &mut records), 12);
    assert_eq!((feed, records[0]), (before, LENT));
    assert_eq!(feed.feed(&drom[10..], &mut records), 0);
    assert_eq!(feed.feed(&[1], &mut records), 12);
    assert_eq!(feed.feed(&[], &mut records), 0);
    assert_eq!((feed.finish().number, feed.finish().records), (0, 1));
}

#[test]
fn finishing_early_and_going_on() {
    let drom = drom(3, &[1, 1]);
    let mut records = buffer();
    let mut feed = opened(drom.len());
    for byte in &drom {
        assert_eq!(feed.finish(), refused(13));
        assert_eq!(feed.feed(&[*byte], &mut records), 0);
    }
    assert_eq!((feed.finish().number, feed.finish().records), (0, 2));
}

#[test]
fn a_small_buffer_in_the_middle() {
    let drom = drom(3, &[1, 3, 8, 6]);
    let mut records = buffer();
    let mut feed = opened(drom.len());
    assert_eq!(feed.feed(&drom[..18], &mut records), 0);
    let before = (feed, records.clone());
    assert_eq!(feed.feed(&drom[18..], &mut records[..ROOM - 1]), 4);
    assert_eq!(feed.feed(&drom[18..], &mut []), 4);
    assert_eq!((feed, records.clone()), before);
    assert_eq!(feed.feed(&drom[18..], &mut records), 0);
    assert_eq!((feed.finish().number, feed.finish().records), (0, 2));
}

#[test]
fn a_refused_header_and_a_refused_entry_go_on_counting() {
    let mut records = buffer();
    let mut feed = opened(100);
    assert_eq!(feed.feed(&[3; 100], &mut records), 0);
    assert_eq!(feed.finish(), refused(2));
    let mut damaged = drom(3, &[1, 0, 9, 9]);
    let crc32 = drom::crc32(&damaged[13..]);
    damaged[9..13].copy_from_slice(&crc32.to_le_bytes());
    let mut feed = opened(damaged.len());
    for piece in damaged.chunks(3) {
        assert_eq!(feed.feed(piece, &mut records), 0);
    }
    let report = feed.finish();
    assert_eq!((report.number, report.offset, report.records), (6, 17, 1));
    assert!(report.crc32_good);
}

#[test]
fn sizes_that_no_drom_has() {
    let mut records = buffer();
    for size in [4_109, 1 << 32 | 16, usize::MAX] {
        let mut feed = opened(size);
        assert_eq!(feed.feed(&[1; 4_109], &mut records), 0);
        assert_eq!(feed.record_count(), 0);
        let number = if size == 4_109 { 2 } else { 13 };
        assert_eq!(feed.finish(), refused(number));
    }
    assert!(records.iter().all(|&byte| byte == LENT));
}

#[test]
fn a_copy_goes_on_by_itself() {
    let drom = drom(3, &[1, 1]);
    let mut records = buffer();
    let mut feed = opened(drom.len());
    feed.feed(&drom[..17], &mut records);
    let mut copy = Feed::from_bytes(*feed.as_bytes());
    assert_eq!(copy, feed);
    assert_eq!(copy.feed(&drom[17..], &mut records), 0);
    assert_eq!((copy.finish().number, feed.finish().number), (0, 13));
}

/// Any state gets an answer, and 18, 4 and 12 leave it and the buffer as they were.
fn try_state(state: [u8; STATE], random: &mut Random, records: &mut [u8]) {
    records.fill(LENT);
    let before = Feed::from_bytes(state);
    let mut feed = before;
    let size = random.below(300);
    let number = feed.feed(&random.bytes(size), records);
    assert!(matches!(number, 0 | 4 | 12 | 18));
    if number != 0 {
        assert_eq!(feed, before);
        assert!(records.iter().all(|&byte| byte == LENT));
    }
    let report = feed.finish();
    if number == 18 {
        assert_eq!(report, refused(18));
    }
    let _ = (feed.record_count(), feed.record_bytes());
}

#[test]
fn states_of_any_bytes_do_no_harm() {
    let random = &mut Random::new(4);
    let mut lent = buffer();
    lent.extend([LENT; 64]);
    for _ in 0..20_000 {
        let state: [u8; STATE] = random.bytes(STATE).try_into().expect("so many bytes");
        try_state(state, random, &mut lent[..ROOM]);
    }
    for _ in 0..20_000 {
        let drom = drom(3, &random_body(random));
        let mut feed = opened(drom.len());
        feed.feed(&drom[..random.below(drom.len() + 1)], &mut lent[..ROOM]);
        let mut state = *feed.as_bytes();
        for _ in 0..1 + random.below(3) {
            let most = if random.below(2) == 0 { 53 } else { STATE };
            state[random.below(most)] = random.below(256) as u8;
        }
        try_state(state, random, &mut lent[..ROOM]);
    }
    assert!(lent[ROOM..].iter().all(|&byte| byte == LENT));
}

/// Numbers at the borders of the reader's own bounds, in every place of the state that holds one.
#[test]
fn states_at_the_borders_do_no_harm() {
    let random = &mut Random::new(5);
    let mut lent = buffer();
    let numbers =
        [0, 1, 15, 16, 17, 254, 255, 4_108, 4_109, 16_368, 16_369, u64::MAX - 1, u64::MAX];
    for _ in 0..60_000 {
        let mut state = [0; STATE];
        for place in 0..6 {
            let number = numbers[random.below(numbers.len())];
            state[8 * place..8 * place + 8].copy_from_slice(&number.to_le_bytes());
        }
        state[52] = random.below(3) as u8 * 6;
        state[66] = random.below(5) as u8;
        state[69] = random.below(256) as u8;
        try_state(state, random, &mut lent);
    }
}

#[test]
fn a_refusal_that_was_made_up_is_reported() {
    let mut state = [0; STATE];
    state[52] = 255;
    assert_eq!(Feed::from_bytes(state).finish().number, 255);
}
