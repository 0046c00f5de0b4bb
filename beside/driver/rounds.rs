//! The time of a call, in rounds of several calls by turns.

use std::hint::black_box;
use std::time::{Duration, Instant};

/// Many short rounds: then most are not interrupted, and the median is of such a one.
const ROUNDS: usize = 301;
/// How long the calls of one round take together, at least.
const ROUND: Duration = Duration::from_micros(200);

/// A call to be timed: nanoseconds a call, over so many calls.
pub type Timed<'a> = Box<dyn FnMut(u32) -> f64 + 'a>;

pub fn timed<'a, A>(mut call: impl FnMut() -> A + 'a) -> Timed<'a> {
    Box::new(move |calls| {
        let start = Instant::now();
        for _ in 0..calls {
            black_box(call());
        }
        start.elapsed().as_nanos() as f64 / f64::from(calls)
    })
}

/// The median nanoseconds of each call.
pub fn by_turns<const N: usize>(mut calls: [Timed; N]) -> [f64; N] {
    let counts = calls.each_mut().map(enough);
    let mut times = [const { Vec::new() }; N];
    for _ in 0..ROUNDS {
        for ((call, count), times) in calls.iter_mut().zip(counts).zip(&mut times) {
            times.push(call(count));
        }
    }
    times.map(median)
}

/// How many calls fill a round.
fn enough(call: &mut Timed) -> u32 {
    let mut count = 1;
    while call(count) * f64::from(count) < ROUND.as_nanos() as f64 {
        count *= 2;
    }
    count
}

fn median(mut times: Vec<f64>) -> f64 {
    times.sort_by(f64::total_cmp);
    times[times.len() / 2]
}
