//! The customer's reader on a whole DROM: its header's values, its verdicts, and its walk over the
//! entries, as far as it comes.

use crate::said::{self, Recorded};
use crate::{record, rust};
use drom::Report;
use tbtools::debugfs::Adapter;
use tbtools::drom::{Drom, DromEntries};
use tbtools::shim;

pub enum Answer {
    /// The words of its error.
    Error(String),
    Walk(Walk),
}

/// A walk over a DROM whose header is accepted.
pub struct Walk {
    /// Number and offset are zero: how the walk ended stands in `end`.
    pub report: Report,
    pub places: Vec<Place>,
    /// The records of the entries, one after the other.
    pub records: Vec<u8>,
    pub end: End,
}

/// Where an entry stands, and where its record ends among the records.
#[derive(Clone, Copy)]
pub struct Place {
    pub offset: usize,
    pub length: usize,
    pub recorded: usize,
}

pub enum End {
    /// There is no further entry.
    Returns,
    /// It panics at that offset, with these words.
    Panics(usize, String),
    /// It gives the entry at that offset for ever.
    Loops(usize),
}

pub fn adapters(list: &[u8]) -> Vec<Adapter> {
    list.chunks_exact(2).map(|adapter| Adapter::new(adapter[0], adapter[1])).collect()
}

/// The Rust's answer. Of a list of odd length, which it cannot be given, the last byte is left out.
pub fn read(list: &[u8], bytes: &[u8]) -> Answer {
    match shim::parse(bytes, &adapters(list)) {
        Err(error) => Answer::Error(error.to_string()),
        Ok(drom) => Answer::Walk(walk(&drom)),
    }
}

fn walk(drom: &Drom) -> Walk {
    let mut walk =
        Walk { report: header(drom), places: Vec::new(), records: Vec::new(), end: End::Returns };
    match rust::ask(|| drom.entries()) {
        Ok(mut entries) => while walk.step(&mut entries) {},
        Err(words) => walk.end = End::Panics(walk.report.start, words),
    }
    walk.report.records = walk.places.len();
    walk.report.bytes = walk.records.len();
    walk
}

fn header(drom: &Drom) -> Report {
    Report {
        version: drom.version(),
        length: drom.length(),
        start: drom.header().len(),
        crc32: drom.crc32(),
        crc32_good: drom.is_crc32_valid(),
        crc8: drom.crc8().unwrap_or(0),
        uuid: drom.uuid().unwrap_or(0),
        crc8_good: drom.is_crc8_valid(),
        ..Report::default()
    }
}

impl Walk {
    /// Takes the next entry in, and says whether the walk goes on.
    fn step(&mut self, entries: &mut DromEntries) -> bool {
        let entry = match rust::ask(|| entries.next()) {
            Ok(Some(entry)) => entry,
            Ok(None) => return false,
            Err(words) => {
                self.end = End::Panics(entries.start(), words);
                return false;
            }
        };
        let (offset, length) = (entries.start(), entries.length());
        if length == 0 {
            assert!(repeats(entries), "an entry of length 0 that is not given again");
            self.end = End::Loops(offset);
            return false;
        }
        self.records.extend(record::of(&entry, offset, length));
        self.places.push(Place { offset, length, recorded: self.records.len() });
        true
    }
}

/// Whether the next entry is the same again. Then so are all others: where an entry starts and how
/// long it is are all that a walk remembers.
fn repeats(entries: &mut DromEntries) -> bool {
    let place = (entries.start(), entries.length());
    entries.next().is_some() && (entries.start(), entries.length()) == place
}

/// What the Rust says of each entry that a walk came to.
pub fn entries(list: &[u8], bytes: &[u8], walk: &Walk) -> Vec<Recorded> {
    let Ok(drom) = shim::parse(bytes, &adapters(list)) else { return Vec::new() };
    if walk.places.is_empty() {
        return Vec::new();
    }
    let entries = drom.entries().take(walk.places.len());
    let recorded = |(entry, place): (_, &Place)| Recorded {
        offset: place.offset,
        length: place.length,
        said: Some(said::from_rust(&entry)),
    };
    entries.zip(&walk.places).map(recorded).collect()
}
