//! A DROM that is lent whole: read, read with the adapters as structs, and parts of it.

use super::Asker;
use crate::differences::{Case, Expected};
use drom::{Adapter, Report};
use std::fmt::Debug;
use std::ops::Range;

pub fn read(asker: &mut Asker, case: &Case, expected: &Expected) -> Result<(), String> {
    let report = drom::read(case.list, case.drom, asker.lent.room(case.room));
    check(asker, &report, expected)
}

pub fn structs(asker: &mut Asker, case: &Case, expected: &Expected) -> Result<(), String> {
    let report = drom::read_listed(&adapters(case.list), case.drom, asker.lent.room(case.room));
    check(asker, &report, expected)
}

pub fn adapters(list: &[u8]) -> Vec<Adapter> {
    let pair = |pair: &[u8]| Adapter { number: pair[0], kind: pair[1] };
    list.chunks_exact(2).map(pair).collect()
}

fn check(asker: &mut Asker, report: &Report, expected: &Expected) -> Result<(), String> {
    same("report", &expected.report, report)?;
    asker.lent.check(&expected.records)?;
    asker.lent.clean(expected.records.len());
    Ok(())
}

pub fn same<A: PartialEq + Debug>(what: &str, expected: &A, ours: &A) -> Result<(), String> {
    if expected == ours {
        Ok(())
    } else {
        Err(format!("{what}: expected {expected:02x?}, ours {ours:02x?}"))
    }
}

/// Header, body and whole stay what they are for any list and room. The entries are the Rust's, one by
/// one; the one after the last is empty, and so is one far beyond.
pub fn parts(_: &mut Asker, case: &Case, expected: &Expected) -> Result<(), String> {
    let Case { list, drom, .. } = *case;
    let start = header_end(drom);
    let size = if start == 0 { 0 } else { drom.len() };
    same_part("header", 0..start, drom::header(drom), drom)?;
    same_part("body", start..size, drom::body(drom), drom)?;
    same_part("whole", 0..size, drom::whole(drom), drom)?;
    if expected.report.number == 4 {
        return Ok(());
    }
    for (n, place) in expected.places.iter().enumerate() {
        let entry = place.offset..place.offset + place.length;
        same_part("entry", entry, drom::entry(list, drom, n), drom)?;
    }
    let count = expected.places.len();
    same_part("entry after the last", 0..0, drom::entry(list, drom, count), drom)?;
    same_part("entry far beyond", 0..0, drom::entry(list, drom, usize::MAX), drom)
}

/// Where the header that the Rust accepts ends, or 0.
fn header_end(drom: &[u8]) -> usize {
    tbtools::shim::parse(drom, &[]).map_or(0, |drom| drom.header().len())
}

/// Any empty part will do for an empty one, as long as it is one of the DROM.
fn same_part(
    what: &str,
    expected: Range<usize>,
    ours: Range<usize>,
    drom: &[u8],
) -> Result<(), String> {
    if expected == ours || expected.is_empty() && ours.is_empty() && ours.end <= drom.len() {
        Ok(())
    } else {
        Err(format!("{what}: expected {expected:?}, ours {ours:?}"))
    }
}
