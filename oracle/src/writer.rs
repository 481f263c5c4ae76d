//! Writes a tune as an S3M file, as far as the format can say it: a channel that is both AdLib and on the right bank
//! loses the bank, and what a sample's type forbids is lost, as are transpositions.

use crate::generate::files::Draft;
use crate::reader::{HEADER_BYTES, INSTRUMENT_BYTES, Lists};
use crate::tune::{ChannelOpening, EMPTY_CELL, ROWS, SAMPLE_BYTES, Tune};

pub fn write(tune: &Tune) -> Vec<u8> {
    let lists = Lists::new(tune.orders.len(), tune.sample_count(), tune.patterns(), true);
    let mut draft = Draft::over(vec![0; HEADER_BYTES], lists);
    let (opening, file) = (&tune.opening, &mut draft.bytes);
    file[28..30].copy_from_slice(&[0x1A, 0x10]);
    file[38] = 16 * u8::from(opening.amiga_limits) + 64 * u8::from(opening.fast_slides);
    file[40..44].copy_from_slice(&[0x20, 0x13, 2, 0]);
    file[HEADER_BYTES..lists.instrument_list()].copy_from_slice(&tune.orders);
    for (i, ch) in opening.channels.iter().enumerate() {
        file[64 + i] = setting(ch);
        file[lists.pans() + i] = 0x20 | ch.pan;
    }
    draft.set_levels([opening.speed, opening.tempo, opening.global_volume]);
    let [instruments, patterns] = lists.pointers();
    for (pointer, sample) in instruments.into_iter().zip(tune.samples.chunks_exact(SAMPLE_BYTES)) {
        draft.put(pointer, &instrument(sample));
    }
    for (number, pointer) in patterns.into_iter().enumerate() {
        draft.put(pointer, &pattern(tune, number));
    }
    draft.bytes
}

fn setting(ch: &ChannelOpening) -> u8 {
    let kind = if ch.adlib { 16 } else { 8 * u8::from(ch.right_bank) };
    kind + 128 * u8::from(ch.muted)
}

/// A sample's 20 bytes as the 80 of an instrument.
fn instrument(sample: &[u8]) -> [u8; INSTRUMENT_BYTES] {
    let mut out = [0; INSTRUMENT_BYTES];
    out[0] = sample[0];
    out[16..28].copy_from_slice(&sample[4..16]);
    out[28] = sample[1];
    out[31] = sample[2];
    out[32..36].copy_from_slice(&sample[16..20]);
    out[76..80].copy_from_slice(b"SCRS");
    out
}

/// Of each cell what it says beyond an unnamed one, if anything.
fn pattern(tune: &Tune, number: usize) -> Vec<u8> {
    let mut out = vec![0; 2];
    for row in 0..ROWS {
        for (channel, cell) in tune.row(number, row).enumerate() {
            let says = |&(_, from, to): &(u8, usize, usize)| cell[from..to] != EMPTY_CELL[from..to];
            let fields = [(0x20, 0, 2), (0x40, 2, 3), (0x80, 3, 5)].into_iter().filter(says);
            let what: u8 = fields.clone().map(|(bit, ..)| bit).sum();
            if what != 0 {
                out.push(channel as u8 + what);
                out.extend(fields.flat_map(|(_, from, to)| &cell[from..to]));
            }
        }
        out.push(0);
    }
    let length = (out.len() as u16).to_le_bytes();
    out[..2].copy_from_slice(&length);
    out
}
