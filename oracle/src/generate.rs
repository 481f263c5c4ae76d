//! Random tunes, states, calls and files, everything from a seed.

mod cells;
pub mod closed;
pub mod columns;
pub mod files;
pub mod head;
pub mod levels;
pub mod pitch;
pub mod records;
pub mod refused;
mod states;
pub mod transposed;
mod tunes;

use crate::random::Random;
pub use states::{odd_bytes, odd_state};
pub use tunes::{Purpose, any_tune, tune};

pub fn noise(random: &mut Random, count: usize) -> Vec<u8> {
    (0..count).map(|_| random.byte()).collect()
}

/// These flags are 0, each in so many of a hundred.
fn unset(random: &mut Random, part: &mut [u8], flags: &[(usize, u64)]) {
    for &(at, percent) in flags {
        if random.chance(percent) {
            part[at] = 0;
        }
    }
}
