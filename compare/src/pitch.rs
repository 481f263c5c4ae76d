//! Pitch at scale, in rows of 32 channels: notes at c5 speeds, sample offsets, Amiga limits, fine slides, finetunes; and
//! every note by every transposition, in each place where a row works out a pitch.

use crate::both::Both;
use oracle::calls::Call;
use oracle::generate::pitch::{self, Placed};
use oracle::generate::transposed;
use oracle::player::PERIOD_TABLE;
use oracle::player::bridge::open;
use oracle::player::cmd::*;
use oracle::random::Random;
use oracle::tune::{CHANNELS, ROWS, Tune};

/// Samples of a tune.
const SAMPLES: usize = 99;
/// What 2,000,000 rows ask for: c5 speeds of each note byte; offsets, limits and slides of each.
const FULL: u64 = 2_000_000;
const C5_A_NOTE: u64 = 20_000;
const OTHERS: u64 = 1_000_000;

pub fn compare(random: &mut Random, rows: u64) -> Result<String, String> {
    let both = &mut Both::default();
    let part = |of: u64| (of * rows / FULL) as usize;
    let notes = notes(both, random, part(C5_A_NOTE).div_ceil(SAMPLES))? + bare(both, random, part(2 * C5_A_NOTE))?;
    let step = FULL.div_ceil(rows.clamp(1, FULL)) as usize;
    let periods = periods(both, step)?;
    let rows = part(OTHERS).div_ceil(CHANNELS);
    offsets(both, random, rows)?;
    slides(both, random, rows, true)?;
    slides(both, random, rows, false)?;
    finetunes(both, random)?;
    let others = rows * CHANNELS;
    let transposed = transposed_notes(both, random, step)?;
    Ok(format!(
        "{notes} notes, {periods} ends of periods, {others} offsets, limits and slides each, 16 finetunes; \
         {transposed} transposed notes, each struck, slid to with and without it, and tuned"
    ))
}

/// A tune's cells from Open on, in one section.
fn play(both: &mut Both, placed: &[Placed]) -> Result<usize, String> {
    let tune = pitch::tune(placed);
    let n = placed.len().div_ceil(CHANNELS) as u32;
    both.same(&Call::section(&tune, open(&tune).encode(), n, 0))?;
    Ok(placed.len())
}

/// Every note at the c5 speeds of so many tunes.
fn notes(both: &mut Both, random: &mut Random, tunes: usize) -> Result<usize, String> {
    let mut count = 0;
    for _ in 0..tunes {
        let c5_speeds: Vec<u32> = (0..SAMPLES).map(|_| pitch::number(random)).collect();
        let placed = (0..=253).flat_map(|note| c5_speeds.iter().map(move |&c5| pitch::note(note, c5)));
        count += play(both, &placed.collect::<Vec<_>>())?;
    }
    Ok(count)
}

/// The target of a slide without a note: any last note, those that are no notes among them.
fn bare(both: &mut Both, random: &mut Random, least: usize) -> Result<usize, String> {
    let rows = least.div_ceil(CHANNELS);
    for _ in 0..rows {
        let cell = [255, 1, 255, random.one(&[G_TONE_PORTA, L_PORT_VOL]), 1];
        let placed: Vec<Placed> = (0..CHANNELS)
            .map(|_| Placed {
                cell,
                ..pitch::note(0, pitch::number(random))
            })
            .collect();
        let tune = pitch::tune(&placed);
        let mut state = open(&tune);
        for channel in &mut state.channels {
            let any = random.byte();
            channel.last_note = random.weighted(&[(1, 0xFE), (1, 0xFF), (2, any)]);
        }
        both.same(&Call::section(&tune, state.encode(), 1, 0))?;
    }
    Ok(rows * CHANNELS)
}

/// The first and the last c5 speed of every period that a note number has, 0 among them; every so many of them.
fn periods(both: &mut Both, step: usize) -> Result<usize, String> {
    let mut count = 0;
    for (n, entry) in PERIOD_TABLE.iter().enumerate() {
        let (byte, product) = ((n / 12 * 16 + n % 12) as u8, 8363 * entry);
        let mut ends = vec![0];
        let mut first = 1;
        while first <= product {
            let last = product / (product / first);
            ends.extend([first, last]);
            first = last + 1;
        }
        ends.extend([first, u32::MAX]);
        let ends: Vec<Placed> = ends.into_iter().step_by(step).map(|c5| pitch::note(byte, c5)).collect();
        for placed in ends.chunks(SAMPLES) {
            count += play(both, placed)?;
        }
    }
    Ok(count)
}

fn offsets(both: &mut Both, random: &mut Random, rows: usize) -> Result<(), String> {
    for _ in 0..rows {
        let placed: Vec<Placed> = (0..CHANNELS).map(|_| pitch::offset(random)).collect();
        let tune = pitch::tune(&placed);
        both.same(&Call::section(&tune, open(&tune).encode(), 1, 0))?;
    }
    Ok(())
}

/// The bits of a frequency: any that is no NaN, one about the Amiga limits, or a usual one.
fn frequency(random: &mut Random) -> f32 {
    match random.below(4) {
        0 => f32::from_bits(random.one(&pitch::limits()) - 500 + random.below(1000) as u32),
        1 => 14_317_456.0 / (1 + pitch::number(random)) as f32,
        _ => loop {
            let any = f32::from_bits(random.number() as u32);
            if !any.is_nan() {
                return any;
            }
        },
    }
}

/// Fine slides on any frequencies; or no step of a slide, which leaves the work to the Amiga limits.
fn slides(both: &mut Both, random: &mut Random, rows: usize, limits: bool) -> Result<(), String> {
    let tune = pitch::slides();
    let mut state = open(&tune);
    for row in 0..rows {
        state.amiga_limits = limits;
        state.row = if limits { 0 } else { (row % ROWS) as u8 };
        for channel in &mut state.channels {
            (channel.frequency, channel.target_frequency) = (frequency(random), frequency(random));
        }
        both.same(&Call::section(&tune, state.encode(), 1, 0))?;
    }
    Ok(())
}

/// Each finetune on every last note.
fn finetunes(both: &mut Both, random: &mut Random) -> Result<(), String> {
    let mut tune = Tune {
        orders: vec![0],
        opening: pitch::opening(),
        ..Tune::default()
    };
    tune.cells = (0..ROWS * CHANNELS)
        .flat_map(|i| [255, 0, 255, S_EXTENDED, 0x20 | (i as u8 % 16)])
        .collect();
    for last_note in 0..=255 {
        let mut state = open(&tune);
        state.amiga_limits = random.chance(50);
        state
            .channels
            .iter_mut()
            .for_each(|channel| channel.last_note = last_note);
        both.same(&Call::section(&tune, state.encode(), 1, 0))?;
    }
    Ok(())
}

/// Every note by every transposition, or every so many of these, at random c5 speeds; a third of the channels is AdLib.
fn transposed_notes(both: &mut Both, random: &mut Random, step: usize) -> Result<usize, String> {
    const SPAN: usize = 49;
    let notes: Vec<[u8; CHANNELS]> = (0..=253).map(|note| [note; CHANNELS]).collect();
    let mut count = 0;
    for first in (0..SPAN).step_by(step.min(SPAN - 1)) {
        let c5_speeds = [(); 2 * transposed::SAMPLES].map(|()| pitch::number(random));
        let mut tune = transposed::tune(&notes, c5_speeds, std::array::from_fn(|k| k % 3 == 0));
        transposed::transpose(&mut tune, |k| ((first + k) % SPAN) as i8 - 24);
        tune.opening.amiga_limits = random.chance(20);
        let [.., opened] = both.same(&Call::open(&tune))?.slots;
        let rows = notes.len() * transposed::BLOCK;
        both.same(&Call::section(&tune, opened, rows as u32, 0))
            .map_err(|why| format!("transpositions from {first} on: {why}"))?;
        count += notes.len() * CHANNELS;
    }
    Ok(count)
}
