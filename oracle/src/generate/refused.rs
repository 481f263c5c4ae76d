//! Calls that may break any of the rules 9 to 14, 17 and 255, alone or together.

use super::tunes::opening;
use super::{closed, noise, odd_bytes};
use crate::calls::{Call, Function};
use crate::card::unit;
use crate::levels::{MOST_PAN, most_volume};
use crate::list::ROOMS;
use crate::random::Random;
use crate::rules::MOST_START;
use crate::state::{ADLIB, CHANNEL_BYTES, HEAD_BYTES, PAN, STORED_VOLUME, TRANSPOSITION, VOICE_GLOBAL_VOLUME, VOLUME};
use crate::tune::{CHANNELS, OPENING_BYTES, PATTERN_BYTES, RECORD_BYTES, SAMPLE_BYTES, TRANSPOSITIONS, Tune, WORKED};

/// What the worked example needs.
const LENT: [usize; 3] = [1, SAMPLE_BYTES, PATTERN_BYTES];
const NANS: [u32; 4] = [0x7F80_0001, 0x7FC0_0000, 0xFF80_0001, 0xFFFF_FFFF];
/// Lengths that rule 9 refuses, that of opening values, and theirs without transpositions.
const LENGTHS: [usize; 6] = [
    0,
    256,
    100 * SAMPLE_BYTES,
    101 * PATTERN_BYTES,
    OPENING_BYTES,
    TRANSPOSITIONS,
];

/// A call on a tune, now and then with another length of a slot or two.
pub fn call(random: &mut Random, tune: &Tune) -> Call {
    let mut call = match random.below(10) {
        0 => Call::measure(WORKED),
        1 => Call::read(WORKED, random.number() as u32, &LENT),
        2..5 => open(random, tune),
        5..8 => section(random, tune),
        _ => record(random),
    };
    break_lengths(random, &mut call);
    call
}

/// The same of a small tune that may be closed, to the two functions that ask for it.
pub fn closed_call(random: &mut Random) -> Call {
    let tune = closed::tune(random);
    let mut call = Call::is_closed(&tune);
    if random.chance(70) {
        call = Call::open_closed(&tune);
        call.slots[3] = broken_opening(random);
    }
    break_lengths(random, &mut call);
    call
}

fn break_lengths(random: &mut Random, call: &mut Call) {
    let last = call.slots.iter().rposition(|slot| !slot.is_empty());
    for _ in 0..random.one(&[0, 0, 1, 2]) {
        let at = random.index(last.map_or(1, |last| last + 1));
        let (length, any) = (call.slots[at].len(), random.one(&LENGTHS));
        let other = random.one(&[any, any, length.saturating_sub(1), length + 1]);
        call.slots[at].resize(other.min(ROOMS[at]), 0);
    }
}

/// Open with values that may break rule 10.
fn open(random: &mut Random, tune: &Tune) -> Call {
    let mut call = Call::open(tune);
    call.slots[3] = broken_opening(random);
    call
}

/// Opening values that may break rule 10.
fn broken_opening(random: &mut Random) -> Vec<u8> {
    let mut opening = opening(random);
    match random.below(12) {
        0 => opening[0] = 0,
        1 => opening[1] = random.between(0, 31),
        2 => opening[2] = random.between(65, 255),
        3 => opening[16 + 4 * random.index(32)] = random.between(16, 255),
        4 => opening[8..12].fill(0),
        5 => opening[8..12].copy_from_slice(&random.one(&[100_001, u32::MAX]).to_le_bytes()),
        6 => opening[TRANSPOSITIONS + random.index(32)] = transposition(random),
        _ => {}
    }
    opening
}

/// One outside the span, as a byte.
fn transposition(random: &mut Random) -> u8 {
    let any = random.between(25, 231);
    random.one(&[any, 25, 127, 128, 231])
}

/// Section with a state and a size that may break rules 11, 17 and 12.
fn section(random: &mut Random, tune: &Tune) -> Call {
    let mut state = odd_bytes(random, tune);
    break_state(random, &mut state);
    break_levels(random, &mut state);
    let (n, far) = (random.below(4) as u32, 65_536 + random.below(1 << 31) as u32);
    let mut call = Call::section(tune, state, n, random.index(2));
    call.number = random.weighted(&[(4, n), (1, n + 1), (1, far)]);
    call
}

/// A place of the state with a value that it may not have, or the last state that rule 11 lets through.
fn break_state(random: &mut Random, state: &mut [u8]) {
    let (unit, any) = (unit(state[11]) as u16, random.number() as u16);
    let mut put = |at: usize, bytes: &[u8]| state[at..at + bytes.len()].copy_from_slice(bytes);
    let channel = 64 + 80 * random.index(32);
    match random.below(24) {
        0 => put(1, &[random.between(64, 255)]),
        1 => put(6, &[random.between(64, 255)]),
        2 => put(10, &[0]),
        3 => put(11, &[random.between(0, 31)]),
        4 => put(24, &random.one(&[MOST_START + 1, u64::MAX]).to_le_bytes()),
        5 => put(16, &[0; 4]),
        6 => put(16, &random.one(&[100_001, u32::MAX]).to_le_bytes()),
        7 | 8 => put(channel, &random.one(&NANS).to_le_bytes()),
        9 | 10 => put(channel + 4, &random.one(&NANS).to_le_bytes()),
        11 => put(20, &unit.to_le_bytes()),
        12 => put(20, &any.max(unit).to_le_bytes()),
        13 => {
            put(1, &[63]);
            put(6, &[63]);
            put(10, &[1, 32]);
            put(20, &[63, 0]);
            put(16, &random.one(&[1, 100_000u32]).to_le_bytes());
            put(24, &MOST_START.to_le_bytes());
        }
        14 | 15 => put(channel + TRANSPOSITION, &[transposition(random)]),
        _ => {}
    }
}

/// A level that a channel may not have, or the last ones that rule 17 lets through, beside volumes that it does not ask for.
fn break_levels(random: &mut Random, state: &mut [u8]) {
    let channel = HEAD_BYTES + CHANNEL_BYTES * random.index(CHANNELS);
    let part = &mut state[channel..][..CHANNEL_BYTES];
    let most = most_volume(part[ADLIB] != 0);
    let [volume, pan] = [most, MOST_PAN].map(|most| {
        let any = random.between(most + 1, 255);
        random.one(&[most + 1, any, 200, 255])
    });
    match random.below(24) {
        0 | 1 => part[VOLUME] = volume,
        2 => part[PAN] = pan,
        3 => (part[VOLUME], part[PAN]) = (volume, pan),
        4 => {
            (part[VOLUME], part[PAN]) = (most, MOST_PAN);
            (part[STORED_VOLUME], part[VOICE_GLOBAL_VOLUME]) = (200, 200);
        }
        _ => {}
    }
}

/// Strikes or Line of any bytes, or all alike.
fn record(random: &mut Random) -> Call {
    let any = noise(random, RECORD_BYTES);
    let record = match random.below(4) {
        0 => vec![0; RECORD_BYTES],
        1 => vec![255; RECORD_BYTES],
        _ => any,
    };
    let output = random.weighted(&[(3, 80), (2, 64), (1, 63), (1, 32), (1, 31)]);
    Call::of_record(random.one(&[Function::Strikes, Function::Line]), &record, output)
}
