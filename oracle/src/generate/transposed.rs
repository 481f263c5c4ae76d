//! Tunes of transposed channels, with rows for every place where a pitch is worked out.

use super::pitch;
use crate::player::cmd::*;
use crate::tune::{CELL, CHANNELS, EMPTY_CELL, PATTERN_BYTES, SAMPLE_BYTES, Tune};

/// Rows for a note: it is struck, slid to by G, slid to by G without a note, both by L, and tuned by S2x.
pub const BLOCK: usize = 6;
/// As many samples for PCM channels, and as many for AdLib ones.
pub const SAMPLES: usize = 3;
const ADLIB: u8 = 2;

/// Notes of each channel, a block of rows behind the other. The samples' c5 speeds are these, those of AdLib last.
pub fn tune(notes: &[[u8; CHANNELS]], c5_speeds: [u32; 2 * SAMPLES], adlib: [bool; CHANNELS]) -> Tune {
    let mut cells = Vec::new();
    for (n, notes) in notes.iter().enumerate() {
        for row in 0..BLOCK {
            let of = |k: usize| cell(row, notes[k], if adlib[k] { SAMPLES as u8 } else { 0 }, n + k);
            cells.extend((0..CHANNELS).flat_map(of));
        }
    }
    let patterns = cells.len().div_ceil(PATTERN_BYTES);
    cells.extend(EMPTY_CELL.repeat((patterns * PATTERN_BYTES - cells.len()) / CELL));
    let sample = |(i, c5): (usize, u32)| sample(if i < SAMPLES { 1 } else { ADLIB }, c5);
    let mut opening = pitch::opening();
    for (channel, adlib) in opening.channels.iter_mut().zip(adlib) {
        channel.adlib = adlib;
    }
    Tune {
        orders: (0..patterns as u8).collect(),
        samples: c5_speeds.into_iter().enumerate().flat_map(sample).collect(),
        cells,
        opening,
    }
}

/// A cell of the block; each row has another sample than the one before, so that its pitch is another.
fn cell(row: usize, note: u8, samples: u8, finetune: usize) -> [u8; CELL] {
    match row {
        0 => [note, samples + 1, 255, 0, 0],
        1 => [note, samples + 2, 255, G_TONE_PORTA, 1],
        2 => [255, samples + 3, 255, G_TONE_PORTA, 1],
        3 => [note, samples + 1, 255, L_PORT_VOL, 1],
        4 => [255, samples + 2, 255, L_PORT_VOL, 1],
        _ => [255, 0, 255, S_EXTENDED, 0x20 | (finetune % 16) as u8],
    }
}

fn sample(kind: u8, c5: u32) -> [u8; SAMPLE_BYTES] {
    let mut out = [0; SAMPLE_BYTES];
    out[..2].copy_from_slice(&[kind, 60]);
    out[16..].copy_from_slice(&c5.to_le_bytes());
    out
}

/// Gives each channel its transposition.
pub fn transpose(tune: &mut Tune, transposition: impl Fn(usize) -> i8) {
    for (k, channel) in tune.opening.channels.iter_mut().enumerate() {
        channel.transposition = transposition(k);
    }
}
