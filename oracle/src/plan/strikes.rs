//! Records put to Strikes: chosen ones for each thing that 02 says of the order, and random ones.

use super::Group;
use crate::calls::{Call, Function};
use crate::generate::records::{self, INFINITY, MINUS};
use crate::list::Case;
use crate::random::Random;
use crate::tune::{CHANNELS, RECORD_BYTES};
use std::iter;

const ALL: u32 = u32::MAX;
/// What lies about the mask and the frequencies.
const FILL: u8 = 0x5A;
const OUTPUTS: [usize; 4] = [32, 33, 64, 70];
const RANDOM: usize = 40;
const GAPS: u32 = 0x8421_F00F;

const ONE: u32 = 0x3F80_0000;
/// 8363.0, and its neighbour above.
const PITCH: u32 = 0x4602_AC00;
const NEXT: u32 = PITCH + 1;
const SMALLEST: u32 = 1;
const LAST_SUBNORMAL: u32 = 0x007F_FFFF;
const FIRST_NORMAL: u32 = 0x0080_0000;
const GREATEST: u32 = INFINITY - 1;
const SIGNALLING: u32 = INFINITY + 1;
const LAST_SIGNALLING: u32 = 0x7FBF_FFFF;
const QUIET: u32 = 0x7FC0_0000;
const LAST_QUIET: u32 = u32::MAX >> 1;

/// One of each kind, by its bits.
#[rustfmt::skip]
const KINDS: [u32; 12] = [
    QUIET, ONE, SMALLEST | MINUS, INFINITY, 0, SIGNALLING | MINUS, ONE | MINUS, INFINITY | MINUS, SMALLEST, MINUS,
    SIGNALLING, QUIET | MINUS,
];

/// Frequencies that all 32 channels have over and over.
#[rustfmt::skip]
const CYCLES: [&[u32]; 19] = [
    &KINDS,
    &[PITCH],
    &[0],
    &[0, MINUS],
    &[MINUS, 0],
    &[ONE, 0, ONE | MINUS, MINUS, SMALLEST, MINUS, SMALLEST | MINUS, 0],
    &[INFINITY, INFINITY | MINUS],
    &[INFINITY | MINUS, INFINITY],
    &[INFINITY, GREATEST, 0, GREATEST | MINUS, INFINITY | MINUS],
    &[QUIET],
    &[LAST_QUIET, QUIET, LAST_SIGNALLING, SIGNALLING],
    &[SIGNALLING, QUIET | MINUS, LAST_QUIET, SIGNALLING | MINUS, QUIET, LAST_SIGNALLING | MINUS, LAST_QUIET | MINUS],
    &[QUIET, ONE, QUIET | MINUS, ONE | MINUS, SIGNALLING, 0, SIGNALLING | MINUS, PITCH],
    &[SIGNALLING, INFINITY, SIGNALLING | MINUS, INFINITY | MINUS, QUIET, INFINITY, QUIET | MINUS, INFINITY | MINUS],
    &[LAST_QUIET, GREATEST, INFINITY, LAST_SIGNALLING | MINUS, GREATEST | MINUS, INFINITY | MINUS, MINUS],
    &[LAST_SUBNORMAL, SMALLEST, FIRST_NORMAL, FIRST_NORMAL - 2],
    &[SMALLEST | MINUS, LAST_SUBNORMAL | MINUS, 0, LAST_SUBNORMAL, MINUS, SMALLEST, FIRST_NORMAL | MINUS],
    &[ONE | MINUS, PITCH | MINUS, SMALLEST | MINUS, GREATEST | MINUS, NEXT | MINUS, FIRST_NORMAL | MINUS],
    &[NEXT, PITCH, NEXT | MINUS, PITCH | MINUS, PITCH, NEXT],
];

/// A mask, and the bits of each channel's frequency.
type Chosen = (u32, Vec<u32>);

/// Each record on its own.
pub fn groups() -> Vec<Group> {
    let random = &mut Random::new(RANDOM as u64);
    let random = (0..RANDOM).map(|_| records::any(random));
    let lent = chosen().chain(random).zip(OUTPUTS.into_iter().cycle());
    let calls = lent.map(|(record, output)| Call::of_record(Function::Strikes, &record, output));
    calls.map(|call| vec![Case::of(call)]).collect()
}

fn chosen() -> impl Iterator<Item = Vec<u8>> {
    let cycles = CYCLES.iter().map(|cycle| (ALL, cycled(cycle)));
    let chosen = cycles.chain(sorted()).chain(flipped()).chain(masks());
    chosen.map(|(mask, frequencies)| {
        let mut record = vec![FILL; RECORD_BYTES];
        records::put(&mut record, mask, frequencies);
        record
    })
}

/// These over and over, on all channels.
fn cycled(frequencies: &[u32]) -> Vec<u32> {
    frequencies.iter().copied().cycle().take(CHANNELS).collect()
}

/// 32 neighbours about a pitch, falling from channel to channel.
fn falling() -> Vec<u32> {
    (0..CHANNELS as u32).map(|channel| NEXT + 15 - channel).collect()
}

/// Falling and rising, above and below 0.
fn sorted() -> impl Iterator<Item = Chosen> {
    let rising: Vec<u32> = falling().into_iter().rev().collect();
    let negative = |bits: &Vec<u32>| bits.iter().map(|bits| bits | MINUS).collect();
    let negatives = [&rising, &falling()].map(negative);
    [falling(), rising].into_iter().chain(negatives).map(|bits| (ALL, bits))
}

/// A pitch and those that differ from it in one bit, on the channels behind it or before it.
fn flipped() -> impl Iterator<Item = Chosen> {
    let behind = [0, 1].map(|lowest| {
        let flips = (lowest..lowest + 31).map(|bit| PITCH ^ 1 << bit);
        iter::once(PITCH).chain(flips).collect::<Vec<u32>>()
    });
    let before = behind.clone().map(|bits| bits.into_iter().rev().collect());
    behind.into_iter().chain(before).map(|bits| (ALL, bits))
}

/// Each number of strikes, on the upper channels; and channels with gaps between.
fn masks() -> impl Iterator<Item = Chosen> {
    let upper = (0..=CHANNELS as u32).map(|count| !ALL.checked_shr(count).unwrap_or(0));
    let gaps = [falling(), cycled(&KINDS)].map(|frequencies| (GAPS, frequencies));
    upper.map(|mask| (mask, falling())).chain(gaps)
}
