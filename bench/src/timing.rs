//! Repeats a piece of work and keeps the best time.

use std::time::Instant;

/// Seconds after which no further run is begun.
const ENOUGH: f64 = 0.25;
/// Quick work is timed this often at most.
const MOST: usize = 25;
/// Work that is quicker than this many seconds is done many times at a go.
const SHORT: f64 = 50e-6;

fn seconds(times: usize, work: &mut impl FnMut()) -> f64 {
    let start = Instant::now();
    (0..times).for_each(|_| work());
    start.elapsed().as_secs_f64() / times as f64
}

/// The best time of several runs. Work of over a second is run twice: once to
/// see how long it takes, and once more.
pub fn best_seconds(mut work: impl FnMut()) -> f64 {
    let begun = Instant::now();
    let mut best = seconds(1, &mut work);
    let times = (SHORT / best).clamp(1.0, 1_000.0) as usize;
    for run in 1..=MOST {
        best = best.min(seconds(times, &mut work));
        let least = if best > 1.0 { 1 } else { 3 };
        if run >= least && begun.elapsed().as_secs_f64() > ENOUGH {
            break;
        }
    }
    best
}
