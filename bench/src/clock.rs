//! Times of works that take turns.

use std::time::{Duration, Instant};

pub const ROUNDS: usize = 31;
const ROUND: Duration = Duration::from_millis(10);

/// The best time of each in nanoseconds; they take turns, so that all meet the same machine.
pub fn best<const N: usize>(works: &mut [&mut dyn FnMut(); N]) -> [f64; N] {
    best_of(ROUNDS, works)
}

/// The same of so many rounds.
pub fn best_of<const N: usize>(rounds: usize, works: &mut [&mut dyn FnMut(); N]) -> [f64; N] {
    let mut best = [f64::INFINITY; N];
    for _ in 0..rounds {
        for (work, best) in works.iter_mut().zip(&mut best) {
            *best = best.min(round(*work));
        }
    }
    best
}

/// Nanoseconds of one call, over a round of at least `ROUND`.
fn round(work: &mut dyn FnMut()) -> f64 {
    let began = Instant::now();
    let mut calls = 0;
    while began.elapsed() < ROUND {
        work();
        calls += 1;
    }
    began.elapsed().as_nanos() as f64 / f64::from(calls)
}

/// The numbers in order: the middle one, with the lowest and the highest.
pub fn spread(numbers: impl IntoIterator<Item = f64>) -> String {
    let mut all: Vec<f64> = numbers.into_iter().collect();
    all.sort_by(f64::total_cmp);
    format!("{:.2} ({:.2} to {:.2})", all[all.len() / 2], all[0], all[all.len() - 1])
}

/// The mean of column k.
pub fn mean<const N: usize>(lines: &[[f64; N]], k: usize) -> f64 {
    lines.iter().map(|line| line[k]).sum::<f64>() / lines.len() as f64
}
