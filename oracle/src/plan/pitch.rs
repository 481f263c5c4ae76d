//! Pitch: chosen notes, c5 speeds, sample offsets, Amiga limits, fine slides and finetunes, in rows of 32 channels.

use super::{Group, ask};
use crate::calls::Call;
use crate::generate::pitch::{self, Placed};
use crate::list::Case;
use crate::player::PERIOD_TABLE;
use crate::player::bridge::open;
use crate::player::cmd::*;
use crate::random::Random;
use crate::tune::{CHANNELS, ROWS};

/// c5 speeds for every note byte.
pub const C5_SPEEDS: [u32; 6] = [0, 1, 8363, 65_535, 1 << 31, u32::MAX];

/// Periods that the first note is brought to.
pub const PERIODS: [u32; 16] = [1, 2, 3, 4, 5, 7, 112, 113, 114, 169, 855, 856, 857, 1712, 9999, 15_000];

/// Frequencies, by their bits: zeros, the smallest, ones, the greatest, infinities, with either sign, and some that
/// tunes have.
#[rustfmt::skip]
const FREQUENCIES: [u32; 20] = [
    0x0000_0000, 0x8000_0000, 0x0000_0001, 0x8000_0001, 0x007f_ffff, 0x0080_0000, 0x8080_0000, 0x3f80_0000,
    0xbf80_0000, 0x3f80_0001, 0x3fff_ffff, 0x4602_ac00, 0x45d1_3000, 0x477f_ff00, 0xc602_ac00, 0x7f00_0000,
    0x7f7f_ffff, 0xff7f_ffff, 0x7f80_0000, 0xff80_0000,
];

const OFFSETS: u64 = 50;

pub fn groups() -> impl Iterator<Item = Group> {
    let chosen = [notes(), periods(), last_notes(), slides()];
    let offsets = (0..OFFSETS).map(|seed| {
        let random = &mut Random::new(seed);
        let placed: Vec<Placed> = (0..CHANNELS).map(|_| pitch::offset(random)).collect();
        play(&placed, 1)
    });
    chosen.into_iter().chain(offsets)
}

/// Cells with their samples, played from Open in sections of so many rows.
fn play(placed: &[Placed], n: usize) -> Vec<Case> {
    let (tune, mut asked) = (pitch::tune(placed), Vec::new());
    let mut state = ask(&mut asked, Call::open(&tune));
    for _ in 0..placed.len().div_ceil(CHANNELS * n) {
        state = ask(&mut asked, Call::section(&tune, state, n as u32, 0));
    }
    asked
}

/// Every note byte at each c5 speed.
fn notes() -> Vec<Case> {
    let all = (0..=253).flat_map(|note| C5_SPEEDS.map(|c5| pitch::note(note, c5)));
    play(&all.collect::<Vec<_>>(), 48)
}

/// The first note about some periods.
fn periods() -> Vec<Case> {
    let last = PERIODS.map(|period| 8363 * PERIOD_TABLE[0] / period);
    let about = last.map(|c5| [c5, c5 + 1].map(|c5| pitch::note(0, c5)));
    play(about.as_flattened(), 1)
}

/// The two bytes that are no notes at each c5 speed, as the last note of a bare slide.
fn last_notes() -> Vec<Case> {
    let bare = C5_SPEEDS.map(|c5| Placed {
        cell: [255, 0, 255, G_TONE_PORTA, 1],
        ..pitch::note(0, c5)
    });
    let tune = pitch::tune(&bare.repeat(2));
    let mut state = open(&tune);
    for (i, channel) in state.channels.iter_mut().enumerate().take(12) {
        channel.instrument = 1 + i as u8 % 6;
        channel.last_note = if i < 6 { 0xFE } else { 0xFF };
    }
    vec![Case::of(Call::section(&tune, state.encode(), 1, 0))]
}

/// Each of the 64 fine slides on 32 frequencies; those of no step again within the Amiga limits.
fn slides() -> Vec<Case> {
    let (tune, mut asked) = (pitch::slides(), Vec::new());
    let mut state = open(&tune);
    for (channel, bits) in state.channels.iter_mut().zip(frequencies()) {
        channel.frequency = f32::from_bits(bits);
        channel.target_frequency = f32::from_bits(bits);
    }
    for (limits, step) in [(false, 1), (true, 16)] {
        for row in (0..ROWS).step_by(step) {
            (state.amiga_limits, state.row) = (limits, row as u8);
            ask(&mut asked, Call::section(&tune, state.encode(), 1, 0));
        }
    }
    asked
}

/// As many frequencies as a row has channels: six about each Amiga limit among them.
pub fn frequencies() -> impl Iterator<Item = u32> {
    let edges = pitch::limits().into_iter().flat_map(|limit| limit - 3..limit + 3);
    FREQUENCIES.into_iter().chain(edges)
}
