//! Medians and the like.

use std::time::Instant;

pub fn median<'a>(times: impl IntoIterator<Item = &'a f64>) -> f64 {
    let mut times: Vec<f64> = times.into_iter().copied().collect();
    times.sort_by(f64::total_cmp);
    let half = times.len() / 2;
    if times.len() % 2 == 1 {
        times[half]
    } else {
        (times[half - 1] + times[half]) / 2.0
    }
}

/// The mean of the middle half: finer than a median where the clock is coarse.
pub fn middle(times: &[f64]) -> f64 {
    let mut times = times.to_vec();
    times.sort_by(f64::total_cmp);
    let half = &times[times.len() / 4..times.len() - times.len() / 4];
    half.iter().sum::<f64>() / half.len() as f64
}

pub fn nanoseconds(since: Instant) -> f64 {
    since.elapsed().as_nanos() as f64
}

/// The time of asking the clock twice, in nanoseconds.
pub fn clock() -> f64 {
    let times: Vec<f64> = (0..10_001).map(|_| nanoseconds(Instant::now())).collect();
    middle(&times)
}
