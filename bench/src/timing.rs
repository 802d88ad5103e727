//! Times: the best of several samples, each of enough settles to be read off a clock.

use std::time::{Duration, Instant};

const SAMPLES: usize = 31;

const SAMPLE: Duration = Duration::from_millis(8);

/// The time of `times` settles.
fn time(times: u32, settle: &mut dyn FnMut()) -> Duration {
    let start = Instant::now();
    for _ in 0..times {
        settle();
    }
    start.elapsed()
}

/// How many settles make a sample.
fn times(settle: &mut dyn FnMut()) -> u32 {
    let mut times = 1;
    while time(times, settle) < SAMPLE {
        times *= 2;
    }
    times
}

/// The best time of one settle of each, in microseconds. Their samples go by turns, so that what else the machine does falls on
/// both alike.
pub fn best_of_each(a: &mut dyn FnMut(), b: &mut dyn FnMut()) -> (f64, f64) {
    let (times_a, times_b) = (times(a), times(b));
    let (mut best_a, mut best_b) = (f64::INFINITY, f64::INFINITY);
    for _ in 0..SAMPLES {
        best_a = best_a.min(time(times_a, a).as_secs_f64() / f64::from(times_a));
        best_b = best_b.min(time(times_b, b).as_secs_f64() / f64::from(times_b));
    }
    (best_a * 1e6, best_b * 1e6)
}
