//! Tunes whose rows change levels, and states whose levels stand at their limits.

use super::pitch;
use crate::levels::{MOST_PAN, most_volume};
use crate::player::cmd::*;
use crate::random::Random;
use crate::state::{ADLIB, CHANNEL_BYTES, HEAD_BYTES, PAN, VOLUME};
use crate::tune::{CELL, CHANNELS, EMPTY_CELL, ROWS, SAMPLE_BYTES, Tune};

/// Of the samples, 1 and on: about the limits, and far off.
const VOLUMES: [u8; 6] = [0, 62, 63, 64, 65, 255];
/// The samples of volumes 64, 65 and 255.
pub const LOUD: [u8; 3] = [4, 5, 6];

/// A tune of one pattern with these rows, empty ones behind them; every other channel is AdLib.
pub fn tune(rows: &[[[u8; CELL]; CHANNELS]]) -> Tune {
    let mut cells = rows.as_flattened().as_flattened().to_vec();
    cells.extend(EMPTY_CELL.repeat((ROWS - rows.len()) * CHANNELS));
    let mut opening = pitch::opening();
    for (k, channel) in opening.channels.iter_mut().enumerate() {
        channel.adlib = k % 2 == 1;
    }
    Tune {
        orders: vec![0],
        samples: VOLUMES.into_iter().flat_map(sample).collect(),
        cells,
        opening,
    }
}

/// A type of PCM or of AdLib makes no difference to a volume: the channel does.
fn sample(volume: u8) -> [u8; SAMPLE_BYTES] {
    let mut out = [0; SAMPLE_BYTES];
    out[..2].copy_from_slice(&[1 + volume % 2, volume]);
    out[16..].copy_from_slice(&8363u32.to_le_bytes());
    out
}

/// A tune of a pattern played four times, in which most cells change a level.
pub fn any_tune(random: &mut Random) -> Tune {
    let row = |_| [(); CHANNELS].map(|()| cell(random));
    let mut tune = tune(&(0..ROWS).map(row).collect::<Vec<_>>());
    tune.orders = vec![0; 4];
    tune.opening.fast_slides = random.chance(50);
    tune
}

/// A slide, a volume, a sample, a pan, several of them, or nothing.
fn cell(random: &mut Random) -> [u8; CELL] {
    let any = random.byte();
    let slide = random.one(&[0xFF, 0xF0, 0x0F, 0xF0 | any, any | 0x0F, any & 0xF0, any & 0x0F, any]);
    let volume = random.one(&[0, 1, 62, 63, 64, 65, 254]);
    let instrument = random.between(1, VOLUMES.len() as u8);
    let pan = random.one(&[
        (X_SET_PAN, any),
        (S_EXTENDED, 0x80 | any & 15),
        (S_EXTENDED, 0xA0 | any & 15),
    ]);
    let mut out = EMPTY_CELL;
    if random.chance(20) {
        (out[0], out[1]) = (random.one(&[0x40, 255]), instrument);
    }
    if random.chance(20) {
        out[2] = volume;
    }
    (out[3], out[4]) = random.weighted(&[(4, (D_VOL_SLIDE, slide)), (2, pan), (2, (0, 0))]);
    out
}

/// Puts the levels of every channel to their limits.
pub fn put_at_limits(state: &mut [u8]) {
    for part in state[HEAD_BYTES..].chunks_exact_mut(CHANNEL_BYTES) {
        (part[VOLUME], part[PAN]) = (most_volume(part[ADLIB] != 0), MOST_PAN);
    }
}
