//! The least time of a call, of some rounds in which each call has its turn.

use std::time::Instant;

pub const ROUNDS: usize = 11;
const ROUND_NANOSECONDS: f64 = 4.0e6;

/// What is timed.
pub type Call<'a> = Box<dyn FnMut() + 'a>;

/// Nanoseconds for each call.
pub fn least(mut calls: Vec<&mut Call>) -> Vec<f64> {
    let counts: Vec<usize> = calls.iter_mut().map(|call| enough(call)).collect();
    let mut times = vec![f64::INFINITY; calls.len()];
    for _ in 0..ROUNDS {
        for ((time, call), count) in times.iter_mut().zip(&mut calls).zip(&counts) {
            *time = time.min(round(call, *count));
        }
    }
    times
}

/// How often a call is made in a round.
fn enough(call: &mut Call) -> usize {
    let mut count = 1;
    while round(call, count) * (count as f64) < ROUND_NANOSECONDS {
        count *= 2;
    }
    count
}

/// Nanoseconds for one of so many calls.
fn round(call: &mut Call, count: usize) -> f64 {
    let began = Instant::now();
    for _ in 0..count {
        call();
    }
    began.elapsed().as_nanos() as f64 / count as f64
}
