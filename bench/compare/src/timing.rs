//! Times as medians of differences: with the calls, less without them.

use crate::ask::{Ask, Kind};
use std::hint::black_box;
use std::time::Instant;

pub type Runner = fn(&[u8], &Ask) -> u64;

/// How often each implementation is timed; the implementations take turns.
const SAMPLES: usize = 401;

fn seconds(runner: Runner, journal: &[u8], ask: &Ask) -> f64 {
    let start = Instant::now();
    black_box(runner(black_box(journal), black_box(ask)));
    start.elapsed().as_secs_f64()
}

/// The middle of some numbers, and the middle of their lower and of their upper half.
fn quartiles(mut numbers: Vec<f64>) -> [f64; 3] {
    numbers.sort_by(f64::total_cmp);
    [1, 2, 3].map(|k| numbers[numbers.len() * k / 4])
}

/// The time of one call in nanoseconds: lower quartile, median and upper quartile, for each runner.
pub fn times(without: &[u8], journal: &[u8], ask: &Ask, count: usize, runners: &[Runner]) -> Vec<[f64; 3]> {
    let nothing = Ask { kind: Kind::Load, numbers: &[], rounds: 0 };
    let none = if ask.kind == Kind::Load { nothing } else { Ask { numbers: &[], ..*ask } };
    let mut found = vec![Vec::with_capacity(SAMPLES); runners.len()];
    for _ in 0..SAMPLES {
        for (runner, found) in runners.iter().zip(&mut found) {
            let first = seconds(*runner, without, &none);
            let with = seconds(*runner, journal, ask);
            let second = seconds(*runner, without, &none);
            found.push((with - first.min(second)) * 1e9 / count as f64);
        }
    }
    found.into_iter().map(quartiles).collect()
}
