//! Several ways to do the same, timed in turn.

use std::time::{Duration, Instant};

/// So many runs, or as many as the time allows.
pub const RUNS: usize = 1_000;
pub const TIME: Duration = Duration::from_secs(8);

/// Each way's best time for all of `sheets` sheets together, in microseconds by
/// sheet.
pub fn in_turn<const WAYS: usize>(
    sheets: usize,
    mut ways: [&mut dyn FnMut(); WAYS],
) -> [f64; WAYS] {
    let mut best = [Duration::MAX; WAYS];
    let begin = Instant::now();
    for run in 0..RUNS {
        if run > 0 && begin.elapsed() > TIME {
            break;
        }
        for (best, way) in best.iter_mut().zip(&mut ways) {
            *best = duration(way).min(*best);
        }
    }
    best.map(|best| microseconds(best) / sheets as f64)
}

/// The best time of several, in microseconds.
pub fn best_of(times: usize, mut way: impl FnMut()) -> f64 {
    let best = (0..times).map(|_| duration(&mut way)).min();
    microseconds(best.unwrap_or_default())
}

fn duration(way: &mut (impl FnMut() + ?Sized)) -> Duration {
    let start = Instant::now();
    way();
    start.elapsed()
}

fn microseconds(time: Duration) -> f64 {
    time.as_secs_f64() * 1e6
}
