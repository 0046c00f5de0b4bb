//! How long a whole DROM takes: the Rust's parse, both verdicts and its walk over all entries, and ours,
//! whole and fed. Then the checksums and texts by themselves.

use crate::inputs::Random;
use crate::make::{dock, mixed, one_byte_entries, plain, with_refused_end};
use crate::rounds::{by_turns, timed};
use crate::whole::LENT;
use crate::{leaves, oracle, rust};
use drom::{Feed, ROOM, Report};
use std::hint::black_box;
use tbtools::debugfs::Adapter;
use tbtools::shim;

const WORDS: &str = "
Time of a DROM in nanoseconds: medians of many short rounds, by turns, on buffers that stay the same
and are not cleared between calls.
    Rust   parse, is_crc32_valid, is_crc8_valid, and the walk over all entries, which are dropped
    read   ours, on a given record buffer: header, verdicts, walk, and all records
    feed   ours: opening, all feeds, finish; in one piece, in pieces of 64 bytes, byte by byte; all
           bytes are gone through, also after a refused header
A number in brackets is ours / Rust.
";

/// DROMs of one sort, and the adapters that are listed for all of them.
struct Sort {
    name: &'static str,
    list: Vec<u8>,
    droms: Vec<Vec<u8>>,
}

pub fn measure() {
    let random = &mut Random::seeded(77);
    println!("{WORDS}");
    println!(
        "{:<40} {:>6} {:>9} {:>16} {:>16} {:>16} {:>18}",
        "DROM", "bytes", "Rust", "read", "feed, one piece", "feed, by 64", "feed, by 1"
    );
    let times: Vec<[f64; 5]> = sorts(random).iter().map(measure_sort).collect();
    println!("\nGrowth from 411 bytes to 4,108, as a factor (the bodies grow by 10.4)");
    println!(
        "{:<40} {:>9} {:>9} {:>9} {:>9} {:>9}",
        "", "Rust", "read", "one piece", "by 64", "by 1"
    );
    print_growth("mixed entries", &times[1], &times[2]);
    print_growth("one-byte entries", &times[3], &times[4]);
    leaves::measure(random);
}

fn sorts(random: &mut Random) -> Vec<Sort> {
    let docks: Vec<Vec<u8>> = (0..32).map(|_| dock(random)).collect();
    let refused = docks.iter().map(|dock| with_refused_end(dock)).collect();
    let cut = docks.iter().map(|dock| dock[..dock.len() - 1].to_vec()).collect();
    let small: Vec<Vec<u8>> = (0..8).map(|_| mixed(random, 3, 411)).collect();
    let large = small.iter().map(|small| grown(random, small)).collect();
    let sort = |name, droms| Sort { name, list: adapters(), droms };
    vec![
        sort("docks of 300 to 600 bytes", docks),
        sort("mixed entries", small),
        sort("mixed entries", large),
        sort("one-byte entries", vec![one_byte_entries(411)]),
        sort("one-byte entries", vec![one_byte_entries(4_108)]),
        sort("docks, header refused (2)", cut),
        sort("docks, last entry refused (Rust panics)", refused),
    ]
}

/// A DROM of 4,108 bytes with ten times the body, and a little more.
fn grown(random: &mut Random, small: &[u8]) -> Vec<u8> {
    let mut body = small[16..].repeat(10);
    let more = 4_108 - body.len();
    body.extend(&mixed(random, 3, more)[16..]);
    plain(3, &body)
}

/// Twenty adapters, as a dock has them: lanes, DisplayPort, PCIe and others.
fn adapters() -> Vec<u8> {
    (1..=20).flat_map(|number| [number, [1, 1, 2, 3, 4, 5, 6][usize::from(number) % 7]]).collect()
}

/// Prints the line of a sort, and hands its times back.
fn measure_sort(sort: &Sort) -> [f64; 5] {
    let times = times(sort);
    print_line(sort, &times);
    times
}

fn times(sort: &Sort) -> [f64; 5] {
    let adapters = oracle::adapters(&sort.list);
    let [mut whole, mut one, mut some, mut each] = [(); 4].map(|()| vec![LENT; ROOM]);
    let list = &sort.list;
    by_turns([
        timed(in_turn(sort, |drom| walk(drom, &adapters))),
        timed(in_turn(sort, |drom| drom::read(list, drom, black_box(&mut whole)).records)),
        timed(in_turn(sort, |drom| fed(list, drom, drom.len(), &mut one).records)),
        timed(in_turn(sort, |drom| fed(list, drom, 64, &mut some).records)),
        timed(in_turn(sort, |drom| fed(list, drom, 1, &mut each).records)),
    ])
}

/// A call that takes one DROM after the other.
fn in_turn<'a>(
    sort: &'a Sort,
    mut call: impl FnMut(&[u8]) -> usize + 'a,
) -> impl FnMut() -> usize + 'a {
    let mut next = 0;
    move || {
        next = (next + 1) % sort.droms.len();
        call(black_box(&sort.droms[next]))
    }
}

/// The Rust's walk, and how many entries it has. A panic is caught, which takes its time too.
fn walk(bytes: &[u8], adapters: &[Adapter]) -> usize {
    let Ok(drom) = shim::parse(bytes, adapters) else { return 0 };
    black_box((drom.is_crc32_valid(), drom.is_crc8_valid()));
    rust::ask(|| drom.entries().map(|entry| drop(black_box(entry))).count()).unwrap_or(0)
}

fn fed(list: &[u8], drom: &[u8], size: usize, records: &mut [u8]) -> Report {
    let (mut feed, _) = Feed::open(list, drom.len(), records);
    for piece in drom.chunks(size) {
        feed.feed(piece, black_box(records));
    }
    feed.finish()
}

fn print_line(sort: &Sort, times: &[f64; 5]) {
    let bytes = sort.droms.iter().map(Vec::len).sum::<usize>() / sort.droms.len();
    let [rust, ours @ ..] = times;
    print!("{:<40} {bytes:>6} {rust:>9.0}", sort.name);
    for (time, width) in ours.iter().zip([8, 8, 8, 10]) {
        print!(" {time:>width$.0} {:>7}", format!("({:.2})", time / rust));
    }
    println!();
}

fn print_growth(name: &str, small: &[f64; 5], large: &[f64; 5]) {
    print!("{name:<40}");
    for (small, large) in small.iter().zip(large) {
        print!(" {:>9.1}", large / small);
    }
    println!();
}
