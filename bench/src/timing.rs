//! Times of several candidates, measured in turns so that a disturbance meets them all.

use std::time::Instant;

/// The best of `rounds` times of each candidate, in seconds.
pub fn best_of(rounds: usize, candidates: &mut [&mut dyn FnMut()]) -> Vec<f64> {
    let mut best = vec![f64::INFINITY; candidates.len()];
    for _ in 0..rounds {
        for (candidate, best) in candidates.iter_mut().zip(&mut best) {
            let start = Instant::now();
            candidate();
            *best = best.min(start.elapsed().as_secs_f64());
        }
    }
    best
}
