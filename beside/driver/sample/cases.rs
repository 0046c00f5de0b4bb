//! The cases: bodies by hand for every tag, refusal and edge, every kind about its least length, sizes,
//! and some docks, whole and damaged.

use crate::differences::Case;
use crate::inputs::Random;
use crate::make::{damage, fill_header, list, mixed, plain, set_length, set_sums};
use crate::text::unhex;
use drom::ROOM;

/// A case that owns its bytes.
#[derive(PartialEq)]
pub struct Owned {
    list: Vec<u8>,
    drom: Vec<u8>,
    room: usize,
}

impl Owned {
    pub fn borrow(&self) -> Case<'_> {
        Case { list: &self.list, drom: &self.drom, room: self.room }
    }
}

/// Adapters 1 to 6 of the kinds 1 to 6, a second 1, and one above 63.
const LIST: &str = "0101 0202 0303 0404 0505 0606 0102 4101";

/// Bodies by themselves, without a list.
const BODIES: &str = "\
    00, 01, 0100, 0101, 02, 0308, 0208, 0308 06, 0308 03, 0308 0c, 0348 fa, 0508 0501 02, 0201, \
    0202, 0241, 0301 41, 0301 00, 0302 00, 0401 4100, 0401 ff00, 0401 4200 01, 0601 4100 ffff, \
    0501 c280 00, 0401 c200, 0602 e282 ac00, 0702 f09f 9880 00, 0601 eda0 8000, 0501 c080 00, \
    0601 4100 4200, 0142 0300 01, 0103 0141, 020c, 020d, 024c, 030c 41, 040c 4100, \
    060c 00d8 4100, 060c 3dd8 00de, 080c 00d8 3dd8 00de, 060c 00dc 00d8, 080c 4100 0000 4200, \
    060d 2000 2100, 060d 7e00 7f00, 040d 0041, 040d ff00, 030d 00, 040c 00d8, 060c 00d8 00d8, \
    060c ffdb ffdf, 060c ffdb 00e0, 060c ffd7 00dc, 030a 09, 040a 0904, 050a 0904 41, \
    060a 0904 4100, 0a0a 0704 4e00 2d00 3700, 040a 01, 020a, 020b, 040b ffff, 050b ffff ff, \
    050b ffff 7f, 050b f0e0 bf, 080b 018a 0502 8b86, 070b 0102 0304 05, 030e 00, 040e 0000, \
    040e 0001, 040e 00fe, 050e 0003 ff, 020f, 030f 00, 040f 0010, 050f 0010 ff, 050f 0011 00, \
    050f 1fe0 ff, 060f 0101 0021, 060f 0102 0021, 070f 0552 0721 42, 060f 1ff1 1fff, \
    080f 0001 0020 aabb, 140f 000f 0000 0102 0304 0506 0708 090a 0b0c 0d0e, \
    130f 000f 0000 0102 0304 0506 0708 090a 0b0c 0d, 0210, 0310 03, 0310 ff, 0410 1f00, \
    0350 e5, 0e09 0002 8780 3412 0701 4433 2211, 0f09 0002 8780 3412 0701 4433 2211 05, \
    0d09 0002 8780 3412 0701 4433 22, 0e49 ffff ffff ffff ffff ffff ffff, 0209, 0200, 0203, \
    0243, 0307 aa, 063f dead beef, 0651 dead beef, 0430 0000, 0204, 0212, 0280, 02c0, 02ff, \
    03c5 01, 0285, 0385 f9, 05bf 0000 00, ff, 0308 0603 0806, 0101 0300, 030c 4100, 0308 0600, \
    0308 0605, 01c5, 02c5 01, 0303 0000";

/// Bodies with the list.
const LISTED_BODIES: &str = "\
    0481 8002, 0481 9001, 0481 6fff, 0481 0000, 0381 80, 0281, 0581 8002 ff, 04c1 8002, \
    0582 0000 41, 0582 0000 03, 0582 ffff ff, 0582 0000 bf, 0482 0000, 0282, 02c2, \
    0683 0000 4100, 0383 00, 0384 20, 0384 08, 0384 ff, 0284, 0484 2900, 02c4, 0385 f9, \
    0385 07, 0385 e0, 0285, 0385 1f, 0386 ff, 0286, 0287, 03c5 f9, \
    0481 8002 0582 0000 4103 8420 0385 0802 8602 cb01, 0481 8002 0282 01, 0385, 0582 0000";

pub fn all() -> Vec<Owned> {
    let random = &mut Random::seeded(5);
    let mut cases = by_hand();
    cases.extend(about_least(random));
    cases.extend(sizes(random));
    cases.extend(rooms_and_lists(random));
    cases.extend(docks(random));
    let mut once: Vec<Owned> = Vec::new();
    for case in cases {
        if !once.contains(&case) {
            once.push(case);
        }
    }
    once
}

fn bytes(text: &str) -> Vec<u8> {
    unhex(text).expect("the bodies here are hex")
}

/// Every body at version 3, and some at version 2 with right checksums.
fn by_hand() -> Vec<Owned> {
    let mut cases = Vec::new();
    for (bodies, list) in [(BODIES, ""), (LISTED_BODIES, LIST)] {
        for (n, body) in bodies.split(", ").enumerate() {
            let body = bytes(body);
            cases.push(Owned { list: bytes(list), drom: plain(3, &body), room: ROOM });
            if n % 4 == 0 {
                let mut drom = plain(2, &body);
                drom[1..9].copy_from_slice(&[1, 0x9e, 0x3c, 0x5a, 0x17, 2, 0xd4, n as u8]);
                set_sums(&mut drom);
                cases.push(Owned { list: bytes(list), drom, room: ROOM });
            }
        }
    }
    cases
}

/// Every kind that has a row of its own, one below its least length, at it, and one above.
fn about_least(random: &mut Random) -> Vec<Owned> {
    let rows = [
        (0x01, 3),
        (0x02, 3),
        (0x08, 3),
        (0x09, 14),
        (0x0a, 4),
        (0x0b, 2),
        (0x0c, 2),
        (0x0d, 2),
        (0x0e, 4),
        (0x0f, 5),
        (0x10, 3),
        (0x11, 2),
        (0x81, 4),
        (0x82, 5),
        (0x83, 5),
        (0x84, 3),
        (0x85, 3),
        (0x86, 2),
        (0x87, 2),
        (0xc1, 2),
    ];
    let mut cases = Vec::new();
    for (kind, least) in rows {
        for length in least - 1..=least + 2 {
            let mut body = random.bytes(length);
            body[0] = length as u8;
            if let Some(byte) = body.get_mut(1) {
                *byte = kind;
            }
            if let (0x0f, Some(byte)) = (kind, body.get_mut(3)) {
                *byte &= 0xf1;
            }
            body.push(1);
            cases.push(Owned { list: bytes(LIST), drom: plain(3, &body), room: ROOM });
        }
    }
    cases
}

/// Sizes about 16, 22 and 4,108; the large ones of a few long entries, so that their records are short.
fn sizes(random: &mut Random) -> Vec<Owned> {
    let mut cases = Vec::new();
    for size in [0, 1, 13, 15, 16, 17, 20, 21, 22, 23] {
        for version in [0, 2, 3, 255] {
            let mut drom = vec![1; size];
            if size > 13 {
                drom[13] = version;
            }
            set_length(&mut drom);
            cases.push(Owned { list: Vec::new(), drom: drom.clone(), room: ROOM });
            if size >= 16 {
                drom[14] ^= 1;
                cases.push(Owned { list: Vec::new(), drom, room: ROOM });
            }
        }
    }
    for size in [4_107, 4_108, 4_109] {
        let mut drom = plain(3, &long_entries(size - 16));
        fill_header(random, &mut drom);
        cases.push(Owned { list: Vec::new(), drom, room: ROOM });
    }
    cases
}

/// Entries of 255 bytes, unused adapters, and one that takes the rest.
fn long_entries(size: usize) -> Vec<u8> {
    let mut body = vec![0xc1; size];
    for entry in body.chunks_mut(255) {
        entry[0] = entry.len() as u8;
    }
    body
}

fn rooms_and_lists(random: &mut Random) -> Vec<Owned> {
    let drom = plain(3, &bytes("0308 06"));
    let mut cases = Vec::new();
    for room in [0, 1, 6, ROOM - 1, ROOM, ROOM + 1] {
        cases.push(Owned { list: Vec::new(), drom: drom.clone(), room });
        cases.push(Owned { list: Vec::new(), drom: drom[..15].to_vec(), room });
    }
    for odd in ["05", "0505 06", "0101 0202 03"] {
        cases.push(Owned { list: bytes(odd), drom: drom.clone(), room: ROOM });
        cases.push(Owned { list: bytes(odd), drom: drom[..15].to_vec(), room: 0 });
    }
    for number in 0..4 {
        let list = [number, 5, 3, 2, number, 1, 64 + number, 4].to_vec();
        let body = [5, 0x83, random.byte(), random.byte(), random.byte(), 4, 0x80, 0x90, 7];
        cases.push(Owned { list, drom: plain(3, &body), room: ROOM });
    }
    cases
}

/// Short docks, each whole and with some harm.
fn docks(random: &mut Random) -> Vec<Owned> {
    let mut cases = Vec::new();
    let mut other = mixed(random, 3, 80);
    for n in 0..24 {
        let version = [2, 3, 3, 1, 3, 255][n % 6];
        let size = 60 + random.below(70);
        let drom = mixed(random, version, size);
        let list = list(random);
        for _ in 0..3 {
            let drom = damage(random, &drom, &other);
            cases.push(Owned { list: list.clone(), drom, room: ROOM });
        }
        cases.push(Owned { list, drom: drom.clone(), room: ROOM });
        other = drom;
    }
    cases
}
