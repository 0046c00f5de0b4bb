//! A DROM that is fed: after each piece the records are those of the entries that are complete, and the
//! last report is that of the whole.

use super::Asker;
use super::questions::same;
use crate::differences::{Case, Expected};
use crate::inputs::Random;
use drom::{Feed, ROOM};

pub fn byte_by_byte(asker: &mut Asker, case: &Case, expected: &Expected) -> Result<(), String> {
    let cuts: Vec<usize> = (1..case.drom.len()).collect();
    fed(asker, case, expected, &cuts)
}

/// Up to eight places to cut at, or none. Where two are the same, the piece between them is empty.
pub fn random_cuts(asker: &mut Asker, case: &Case, expected: &Expected) -> Result<(), String> {
    let cuts = cuts(&mut asker.random, case.drom.len());
    fed(asker, case, expected, &cuts).map_err(|words| format!("cut at {cuts:?}: {words}"))
}

fn cuts(random: &mut Random, length: usize) -> Vec<usize> {
    let count = random.below(9);
    let mut cuts: Vec<usize> = (0..count).map(|_| random.below(length + 1)).collect();
    cuts.sort_unstable();
    cuts
}

fn fed(asker: &mut Asker, case: &Case, expected: &Expected, cuts: &[usize]) -> Result<(), String> {
    let (mut feed, number) = Feed::open(case.list, case.drom.len(), asker.lent.room(case.room));
    let is_closed = matches!(expected.report.number, 1 | 4 | 5);
    let opened = if is_closed { expected.report.number } else { 0 };
    same("opening", &opened, &number)?;
    let mut from = 0;
    for &to in cuts.iter().chain([&case.drom.len()]) {
        let piece = &case.drom[from..to];
        let number = feed.feed(piece, asker.lent.room(case.room));
        same("feed", &answer(case, is_closed, piece), &number)?;
        check_so_far(asker, &feed, expected, to)?;
        from = to;
    }
    same("finish", &expected.report, &feed.finish())?;
    same("finish again", &expected.report, &feed.finish())?;
    asker.lent.clean(expected.records.len());
    Ok(())
}

/// The number of a feed: an opening that was refused takes no byte.
fn answer(case: &Case, is_closed: bool, piece: &[u8]) -> u8 {
    match is_closed {
        _ if case.room < ROOM => 4,
        true if !piece.is_empty() => 12,
        _ => 0,
    }
}

fn check_so_far(
    asker: &Asker,
    feed: &Feed,
    expected: &Expected,
    taken: usize,
) -> Result<(), String> {
    let is_complete = |place: &crate::oracle::Place| place.offset + place.length <= taken;
    let count = expected.places.partition_point(is_complete);
    let bytes = count.checked_sub(1).map_or(0, |last| expected.places[last].recorded);
    let so_far = (feed.record_count(), feed.record_bytes());
    same("records and their bytes so far", &(count, bytes), &so_far)?;
    asker.lent.check(&expected.records[..bytes])
}
