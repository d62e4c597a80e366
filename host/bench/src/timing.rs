//! The best time of a row.

use crate::lent::Lent;
use crate::row::Row;
use crate::sides::Answer;
use std::hint::black_box;
use std::time::Instant;

/// Rounds, of which the best counts. In each, ours and the Rust take turns.
pub const ROUNDS: usize = 60;
/// The least time of one run, in nanoseconds.
const RUN: u128 = 3_000_000;

/// Nanoseconds for the whole input. The Rust has none where it is not at hand.
#[derive(Clone, Copy)]
pub struct Times {
    pub ours: f64,
    pub rust: Option<f64>,
}

impl Times {
    pub fn of(row: &Row) -> Times {
        if oracle::LIVE {
            let [ours, rust] = best([row.sides.ours, row.sides.rust], &row.lent);
            let rust = Some(rust);
            Times { ours, rust }
        } else {
            let [ours] = best([row.sides.ours], &row.lent);
            Times { ours, rust: None }
        }
    }

    pub fn ratio(&self) -> Option<f64> {
        self.rust.map(|rust| self.ours / rust)
    }
}

type Lap = fn(&Lent) -> Answer;

fn best<const N: usize>(laps: [Lap; N], lent: &Lent) -> [f64; N] {
    let counts = laps.map(|lap| enough(lap, lent));
    let mut best = [f64::INFINITY; N];
    for _ in 0..ROUNDS {
        for index in 0..N {
            let count = counts[index];
            let time = run(laps[index], lent, count) as f64 / f64::from(count);
            best[index] = best[index].min(time);
        }
    }
    best
}

/// How many laps make a run.
fn enough(lap: Lap, lent: &Lent) -> u32 {
    let mut laps = 1;
    while run(lap, lent, laps) < RUN {
        laps *= 2;
    }
    laps
}

/// The time of so many laps, in nanoseconds.
fn run(lap: Lap, lent: &Lent, laps: u32) -> u128 {
    let lap = black_box(lap);
    let start = Instant::now();
    for _ in 0..laps {
        black_box(lap(black_box(lent)));
    }
    start.elapsed().as_nanos()
}
