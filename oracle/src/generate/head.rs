//! Steps of the punch head: registers that are mostly good, commands of which most act, records that are mostly whole.

use super::noise;
use crate::calls::Call;
use crate::head::{CLEAR, INTERRUPT, LATE, LOAD, LOADED, REGISTERS_BYTES, STATUS, STRIKE};
use crate::random::Random;
use crate::tune::RECORD_BYTES;

/// Where a record's channels begin.
const CHANNELS_AT: usize = 24;

/// Any registers that rule 15 lets through.
pub fn registers(random: &mut Random) -> Vec<u8> {
    let mut out = noise(random, REGISTERS_BYTES);
    out[STATUS] &= LOADED | LATE | INTERRUPT;
    out[2..4].fill(0);
    out
}

/// A step on these registers, which now and then breaks a rule or two. One on other registers is refused.
pub fn step(random: &mut Random, registers: &[u8]) -> Call {
    let mut registers = registers.to_vec();
    if random.chance(5) {
        break_registers(random, &mut registers);
    }
    Call::head_step(&registers, command(random), &record(random))
}

fn break_registers(random: &mut Random, registers: &mut Vec<u8>) {
    let length = random.index(2 * REGISTERS_BYTES + 1);
    match random.below(6) {
        0 => registers[STATUS] |= 1 << random.between(2, 6),
        1 => registers[STATUS] |= random.byte() & !(LOADED | LATE | INTERRUPT),
        2 => registers[2] = random.byte(),
        3 => registers[3] = random.byte(),
        4 => registers.resize(random.one(&[0, 15, 17]), 0),
        _ => registers.resize(length, 0),
    }
}

fn command(random: &mut Random) -> u32 {
    let (any, few, far) = (random.byte(), random.between(0, 7), random.number() as u32);
    let acting = [(8, LOAD), (8, STRIKE), (3, CLEAR), (2, few), (2, any)].map(|(weight, byte)| (weight, byte.into()));
    random.weighted(&[&acting[..], &[(1, 256 + u32::from(few)), (1, far.max(256))]].concat())
}

/// Any head and one byte over and over behind it, now and then of another length.
fn record(random: &mut Random) -> Vec<u8> {
    let mut out = vec![random.byte(); RECORD_BYTES];
    out[..CHANNELS_AT].copy_from_slice(&noise(random, CHANNELS_AT));
    let any = random.index(2 * RECORD_BYTES);
    let lengths = [0, CHANNELS_AT, RECORD_BYTES - 1, RECORD_BYTES + 1, any].map(|length| (1, length));
    out.resize(random.weighted(&[&[(60, RECORD_BYTES)], &lengths[..]].concat()), 0);
    out
}
