//! Times of many short samples, taken in turn from both sides.

use crate::cases::{Case, Run};
use std::time::{Duration, Instant};

const SAMPLES: usize = 1_001;
/// Where a call takes longer than a millisecond.
const FEWER: usize = 101;
const LONG: Duration = Duration::from_millis(1);
/// A sample is long enough for the clock and short enough that most are not interrupted.
const SAMPLE: Duration = Duration::from_micros(20);

/// In nanoseconds for one call.
#[derive(Clone, Copy)]
pub struct Times {
    pub median: f64,
    pub fastest: f64,
}

fn sample(run: &mut Run, runs: u64) -> Duration {
    let start = Instant::now();
    run(runs);
    start.elapsed()
}

/// Of a few, since one may be interrupted.
fn fastest(run: &mut Run, runs: u64) -> Duration {
    let samples = (0..5).map(|_| sample(run, runs));
    samples.min().unwrap_or_default()
}

/// How many runs a sample needs; the doubling warms the side up.
fn runs_of(run: &mut Run) -> u64 {
    let enough = |runs: &u64| fastest(run, *runs) >= SAMPLE;
    (0..).map(|power| 1 << power).find(enough).unwrap_or(1)
}

fn times(mut samples: Vec<Duration>, calls: u64) -> Times {
    samples.sort();
    let of = |sample: Duration| sample.as_nanos() as f64 / calls as f64;
    Times {
        median: of(samples[samples.len() / 2]),
        fastest: of(samples[0]),
    }
}

/// The times of each of these, which make so many calls a run, sampled in turn.
pub fn each<const SIDES: usize>(mut sides: [&mut Run; SIDES], calls: u64) -> [Times; SIDES] {
    let runs = sides.each_mut().map(|side| runs_of(side));
    let is_long = sides.iter_mut().any(|side| fastest(side, 1) > LONG);
    let mut samples = [const { Vec::new() }; SIDES];
    for _ in 0..if is_long { FEWER } else { SAMPLES } {
        for (number, side) in sides.iter_mut().enumerate() {
            samples[number].push(sample(side, runs[number]));
        }
    }
    let mut runs = runs.into_iter();
    samples.map(|samples| times(samples, calls * runs.next().unwrap_or(1)))
}

/// The times of the proved side and of the other.
pub fn both(case: &mut Case) -> (Times, Times) {
    let [proved, rust] = each([&mut case.proved, &mut case.rust], case.calls);
    (proved, rust)
}
