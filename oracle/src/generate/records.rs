//! Records for Strikes, with frequencies of every kind that a float has.

use super::noise;
use crate::random::Random;
use crate::strikes::{MASK, frequency_at};
use crate::tune::{CHANNELS, RECORD_BYTES};

pub const INFINITY: u32 = 0x7F80_0000;
pub const MINUS: u32 = 1 << 31;
/// Set where a NaN is quiet.
const QUIET: u32 = 1 << 22;

/// Bits without a sign at which kinds of floats begin or end, and two pitches.
#[rustfmt::skip]
const EDGES: [u32; 14] = [
    0, 1, 0x007F_FFFF, 0x0080_0000, 0x3F80_0000, 0x3F80_0001, 0x4602_AC00, 0x4602_AC01,
    INFINITY - 1, INFINITY, INFINITY + 1, INFINITY + QUIET - 1, INFINITY + QUIET, u32::MAX >> 1,
];

/// Puts the mask and the frequencies of the first channels into a record.
pub fn put(record: &mut [u8], mask: u32, frequencies: impl IntoIterator<Item = u32>) {
    record[MASK..MASK + 4].copy_from_slice(&mask.to_le_bytes());
    for (channel, bits) in frequencies.into_iter().enumerate() {
        record[frequency_at(channel)..][..4].copy_from_slice(&bits.to_le_bytes());
    }
}

/// Any bytes, the frequencies from a few, so that some are equal and some differ in one bit.
pub fn any(random: &mut Random) -> Vec<u8> {
    let mut record = noise(random, RECORD_BYTES);
    let few: Vec<u32> = (0..random.one(&[1, 2, 5, CHANNELS]))
        .map(|_| frequency(random))
        .collect();
    let frequencies: Vec<u32> = (0..CHANNELS).map(|_| one_of(random, &few)).collect();
    let [one, other] = [(); 2].map(|_| random.number() as u32);
    let mask = random.weighted(&[(4, u32::MAX), (3, one), (1, one & other), (2, one | other)]);
    put(&mut record, mask, frequencies);
    record
}

fn one_of(random: &mut Random, few: &[u32]) -> u32 {
    let (bits, flipped) = (random.one(few), 1 << random.below(32));
    random.weighted(&[(4, bits), (1, bits ^ flipped)])
}

/// The bits of a frequency, each kind as often.
fn frequency(random: &mut Random) -> u32 {
    let any = random.number() as u32;
    let (sign, low) = (any & MINUS, any % QUIET);
    let pitch = (14_317_456.0 / (1 + any % 60_000) as f32).to_bits();
    let kinds = [
        0,
        low.max(1),
        pitch,
        INFINITY,
        INFINITY + low.max(1),
        INFINITY + QUIET + low,
    ];
    let (kind, edge) = (random.one(&kinds), random.one(&EDGES));
    random.weighted(&[(6, sign | kind), (2, sign | edge), (2, any)])
}
