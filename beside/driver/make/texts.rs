//! Names and texts at the borders of UTF-8 and UTF-16.

use super::{plain, roomy};
use crate::differences::Case;
use crate::inputs::{Random, bytes_of, every};
use crate::leaves::{BYTES, UNITS};

const RANDOM_TEXTS: usize = 20_000;

/// Each name without a zero byte, with one, and with more behind it.
pub fn utf8(random: &mut Random, each: &mut dyn FnMut(&Case)) {
    for length in 0..=3 {
        every(&BYTES, length, |text| names(text, each));
    }
    for _ in 0..RANDOM_TEXTS {
        let length = random.below(20);
        let text: Vec<u8> = (0..length).map(|_| random.pick(&BYTES)).collect();
        names(&text, each);
        names(&random_characters(random), each);
    }
}

fn names(text: &[u8], each: &mut dyn FnMut(&Case)) {
    for (kind, end) in [(0x01, &[][..]), (0x42, &[0]), (0x01, &[0, 0xff]), (0x02, &[0, 0x41, 0])] {
        let mut body = vec![(2 + text.len() + end.len()) as u8, kind];
        body.extend(text);
        body.extend(end);
        each(&roomy(&[], &plain(3, &body)));
    }
}

/// Right UTF-8, with a byte lost at times.
fn random_characters(random: &mut Random) -> Vec<u8> {
    let character = |_| {
        let most = random.pick(&[0x80, 0x800, 0x1_0000, 0x11_0000]);
        char::from_u32(random.below(most) as u32).unwrap_or('\u{fffd}')
    };
    let mut text = (0..6).map(character).collect::<String>().into_bytes();
    if random.once_in(2) {
        text.remove(random.below(text.len()));
    }
    text
}

/// As vendor name, model name and serial number, and with a byte less.
pub fn utf16(random: &mut Random, each: &mut dyn FnMut(&Case)) {
    for length in 0..=3 {
        every(&UNITS, length, |units| texts(&bytes_of(units), each));
    }
    for _ in 0..RANDOM_TEXTS {
        let length = random.below(30);
        let unit = |_| if random.once_in(4) { random.unit() } else { random.pick(&UNITS) };
        let units: Vec<u16> = (0..length).map(unit).collect();
        texts(&bytes_of(&units), each);
    }
}

fn texts(text: &[u8], each: &mut dyn FnMut(&Case)) {
    for (kind, before) in [(0x0c, &[][..]), (0x4d, &[]), (0x0a, &[0x09, 0x04])] {
        let mut body = vec![(2 + before.len() + text.len()) as u8, kind];
        body.extend(before);
        body.extend(text);
        each(&roomy(&[], &plain(3, &body)));
        body[0] -= 1;
        body.pop();
        each(&roomy(&[], &plain(3, &body)));
    }
}
