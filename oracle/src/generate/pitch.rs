//! Tunes whose rows ask for pitch: a cell and a sample for each channel.

use crate::player::cmd::*;
use crate::player::{AMIGA_CLOCK_HZ, AMIGA_LIMIT_PERIOD_MAX, AMIGA_LIMIT_PERIOD_MIN};
use crate::random::Random;
use crate::tune::{CELL, CHANNELS, EMPTY_CELL, Opening, PATTERN_BYTES, ROWS, SAMPLE_BYTES, Tune};

/// A cell and the sample that it plays.
#[derive(Clone, Copy)]
pub struct Placed {
    pub cell: [u8; CELL],
    pub sample: [u8; SAMPLE_BYTES],
}

/// A cell with a sample: its loop flag, and length, loop start, loop end and c5 speed.
fn placed(cell: [u8; CELL], looped: bool, numbers: [u32; 4]) -> Placed {
    let mut sample = [0; SAMPLE_BYTES];
    sample[..4].copy_from_slice(&[1, 60, looped.into(), 0]);
    sample[4..].copy_from_slice(numbers.map(u32::to_le_bytes).as_flattened());
    Placed { cell, sample }
}

/// A note at a c5 speed.
pub fn note(note: u8, c5: u32) -> Placed {
    placed([note, 1, 255, 0, 0], false, [0, 0, 0, c5])
}

/// A sample offset with a loop that is mostly sound, and often about its ends.
pub fn offset(random: &mut Random) -> Placed {
    let (any, [near, far]) = (random.byte(), [(); 2].map(|_| number(random)));
    let info = random.one(&[any, any, 0, 1, 255]);
    let end = (u32::from(info) * 256 + near % 3).saturating_sub(1);
    let end = random.one(&[end, end, near, u32::MAX]);
    let start = random.one(&[0, 7, far.min(end), end.saturating_sub(1), end, far]);
    let length = random.one(&[end, end, u32::MAX, end.saturating_sub(1), far]);
    let cell = [0x40, 1, 255, O_SAMPLE_OFFSET, info];
    placed(cell, random.chance(90), [length, start, end, 8363])
}

/// A number of at most 4 to 32 bits, each as often.
pub fn number(random: &mut Random) -> u32 {
    let bits = 4 + random.below(29);
    (random.number() >> (64 - bits)) as u32
}

/// A tune that plays these one behind the other, 32 a row. Cells share equal samples, of which there may be 99.
pub fn tune(placed: &[Placed]) -> Tune {
    let mut samples: Vec<[u8; SAMPLE_BYTES]> = Vec::new();
    let mut cells = Vec::new();
    for one in placed {
        let known = samples.iter().position(|sample| *sample == one.sample);
        let number = known.unwrap_or(samples.len());
        if known.is_none() {
            samples.push(one.sample);
        }
        let mut cell = one.cell;
        cell[1] = if cell[1] == 0 { 0 } else { number as u8 + 1 };
        cells.extend(cell);
    }
    let patterns = placed.len().div_ceil(CHANNELS * ROWS);
    cells.extend(EMPTY_CELL.repeat(patterns * PATTERN_BYTES / CELL - placed.len()));
    assert!(samples.len() <= 99, "a tune has no more samples");
    Tune {
        orders: (0..patterns as u8).collect(),
        samples: samples.concat(),
        cells,
        opening: opening(),
    }
}

/// A tune whose row r has the fine slide r in each channel: E from 0xE0 up, then F.
pub fn slides() -> Tune {
    let row = |row: u8| {
        let command = if row < 32 { E_SLIDE_DOWN } else { F_SLIDE_UP };
        let cell = [255, 0, 255, command, 0xE0 + row % 32];
        [placed(cell, false, [0; 4]); CHANNELS]
    };
    tune((0..ROWS as u8).map(row).collect::<Vec<_>>().as_flattened())
}

pub fn opening() -> Opening {
    let mut out = Opening::default();
    (out.speed, out.tempo, out.global_volume, out.rate) = (6, 125, 64, 60_000);
    out.channels.iter_mut().for_each(|channel| channel.pan = 8);
    out
}

/// The bits of the Amiga limits.
pub fn limits() -> [u32; 2] {
    [AMIGA_LIMIT_PERIOD_MAX, AMIGA_LIMIT_PERIOD_MIN].map(|period| (AMIGA_CLOCK_HZ as f32 / period as f32).to_bits())
}
