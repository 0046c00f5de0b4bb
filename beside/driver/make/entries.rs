//! Entries as docks have them, each long enough for its kind.

use crate::inputs::{Random, bytes_of};

/// An entry that is accepted whatever the adapters are.
pub fn entry(random: &mut Random) -> Vec<u8> {
    match random.below(16) {
        0..=4 => adapter(random),
        5 => with(random, 0xc0, 0, 0),
        6 | 7 => name(random),
        8 => text(random),
        9 => serial(random),
        10 => dptx(random),
        11 => usb3_map(random),
        12 => fixed(random),
        13 => other_kind(random),
        14 => vec![1],
        _ => product(random),
    }
}

/// An entry of a kind byte and so many random bytes; those of the bits `any` may be changed.
fn with(random: &mut Random, kind: u8, any: u8, count: usize) -> Vec<u8> {
    let any = if kind & 0x80 != 0 { 0x3f } else { any };
    let mut entry = vec![(2 + count) as u8, kind ^ random.byte() & any];
    entry.extend(random.bytes(count));
    entry
}

fn adapter(random: &mut Random) -> Vec<u8> {
    let count = random.pick(&[3, 3, 4, 6]);
    with(random, 0x80, 0, count)
}

fn other_kind(random: &mut Random) -> Vec<u8> {
    let kind = random.pick(&[0x00, 0x03, 0x07, 0x11, 0x20, 0x30, 0x3f]);
    let count = random.below(12);
    with(random, kind, 0x40, count)
}

fn product(random: &mut Random) -> Vec<u8> {
    let count = 12 + random.below(3);
    with(random, 0x09, 0, count)
}

/// TMU, single data path, embedded link.
fn fixed(random: &mut Random) -> Vec<u8> {
    let kind = random.pick(&[0x08, 0x0e, 0x10]);
    let count = 2 + random.below(2);
    with(random, kind, 0x40, count)
}

fn usb3_map(random: &mut Random) -> Vec<u8> {
    let count = random.below(14);
    with(random, 0x0b, 0, count)
}

fn dptx(random: &mut Random) -> Vec<u8> {
    let ranks = random.below(16);
    let more = random.below(3);
    let mut entry = with(random, 0x0f, 0, 3 + ranks + more);
    entry[3] = entry[3] & 0xf0 | ranks as u8;
    entry
}

/// An ASCII name, with a character of more bytes at times, and more behind its zero byte.
fn name(random: &mut Random) -> Vec<u8> {
    let length = random.below(20);
    let character =
        |_| random.pick(&['A', 'k', 'z', ' ', '-', '7', '\u{b2}', '\u{20ac}', '\u{1f600}']);
    let mut text = (0..length).map(character).collect::<String>().into_bytes();
    text.push(0);
    let more = random.below(3);
    text.extend(random.bytes(more));
    of(random.pick(&[0x01, 0x02, 0x41, 0x42]), &text)
}

fn text(random: &mut Random) -> Vec<u8> {
    let units = units(random);
    of(random.pick(&[0x0c, 0x0d, 0x4c]), &units)
}

fn serial(random: &mut Random) -> Vec<u8> {
    let mut bytes = random.bytes(2);
    bytes.extend(units(random));
    of(0x0a, &bytes)
}

/// UTF-16 of letters mostly, with surrogates in pairs and alone.
fn units(random: &mut Random) -> Vec<u8> {
    let length = random.below(20);
    let unit = |_| match random.below(8) {
        0 => random.pick(&[0x20, 0x00, 0x7f, 0xe9, 0x20ac, 0xd83d, 0xde00, 0xdc00, 0xdbff]),
        _ => random.pick(&[0x41, 0x6b, 0x7e, 0x21, 0x37]),
    };
    bytes_of(&(0..length).map(unit).collect::<Vec<u16>>())
}

fn of(kind: u8, rest: &[u8]) -> Vec<u8> {
    let mut entry = vec![(2 + rest.len()) as u8, kind];
    entry.extend(rest);
    entry
}
