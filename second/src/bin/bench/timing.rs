//! Times of calls.

use std::time::Instant;

const REPETITIONS: u32 = 9;
/// Long enough for the clock, short enough to escape most interruptions.
const SECONDS: f64 = 0.003;

/// Seconds a call, the best of several repetitions.
pub fn best(mut call: impl FnMut()) -> f64 {
    let once = repeated(1, &mut call).max(1e-9);
    let calls = (SECONDS / once).clamp(1.0, 1e5) as u32;
    (0..REPETITIONS).map(|_| repeated(calls, &mut call)).fold(f64::INFINITY, f64::min)
}

/// Seconds of each of several long calls, the best of as many turns.
pub fn best_by_turns<const N: usize>(calls: [&mut dyn FnMut(); N]) -> [f64; N] {
    best_of_turns(2 * REPETITIONS, calls)
}

/// The best of so many turns: where the machine is slower for a while, it is so
/// for all calls.
pub fn best_of_turns<const N: usize>(turns: u32, mut calls: [&mut dyn FnMut(); N]) -> [f64; N] {
    let mut best = [f64::INFINITY; N];
    for _ in 0..turns {
        for (best, call) in best.iter_mut().zip(&mut calls) {
            *best = best.min(repeated(1, call));
        }
    }
    best
}

fn repeated(calls: u32, call: &mut impl FnMut()) -> f64 {
    let start = Instant::now();
    for _ in 0..calls {
        call();
    }
    start.elapsed().as_secs_f64() / f64::from(calls)
}
