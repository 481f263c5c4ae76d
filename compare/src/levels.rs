//! States about the limits of levels: every byte as a volume on PCM and on AdLib and as a pan, in every channel, alone and
//! with rules 11 and 12 broken; and walks whose rows change levels.

use crate::both::Both;
use oracle::calls::Call;
use oracle::generate::{self, levels};
use oracle::random::Random;
use oracle::rules::MOST_START;
use oracle::state::{ADLIB, CHANNEL_BYTES, HEAD_BYTES, PAN, VOLUME};
use oracle::tune::{CHANNELS, Tune, le64};

/// Every so many rows ask for each byte once more, in the next channel; 2,000,000 have each in all of them.
const ROUND: u64 = 62_500;
/// Every so many rows ask for a walk of so many sections.
const WALK: u64 = 5_000;
const SECTIONS: usize = 10;

pub fn compare(random: &mut Random, rows: u64) -> Result<String, String> {
    let both = &mut Both::default();
    for round in 0..(rows / ROUND).clamp(1, CHANNELS as u64) {
        each_byte(both, random, round as usize).map_err(|why| format!("round {round}: {why}"))?;
    }
    let (alone, mut walked) = (both.calls, 0);
    for n in 0..(rows / WALK).max(10) {
        walked += walk(both, random).map_err(|why| format!("walk {n}: {why}"))?;
    }
    Ok(format!(
        "{alone} calls with a level about its limit, {walked} rows that change levels, {}",
        both.refusals()
    ))
}

/// Each byte as each level of one channel: a volume on PCM, one on AdLib by any mark, and a pan.
fn each_byte(both: &mut Both, random: &mut Random, round: usize) -> Result<(), String> {
    let tune = levels::any_tune(random);
    for byte in 0..=255 {
        let channel = (usize::from(byte) + round) % CHANNELS;
        let (mark, any) = (random.between(1, 255), random.byte());
        for (mark, place) in [(0, VOLUME), (mark, VOLUME), (any, PAN)] {
            let mut state = at_limits(random, &tune);
            let part = &mut state[HEAD_BYTES + CHANNEL_BYTES * channel..];
            (part[ADLIB], part[VOLUME]) = (mark, 63);
            part[place] = byte;
            put(both, random, &tune, &state)
                .map_err(|why| format!("byte {place} of channel {channel} is {byte}, mark {mark}: {why}"))?;
        }
    }
    Ok(())
}

/// An odd state, half of the time with all levels at their limits.
fn at_limits(random: &mut Random, tune: &Tune) -> Vec<u8> {
    let mut state = generate::odd_bytes(random, tune);
    if random.chance(50) {
        levels::put_at_limits(&mut state);
    }
    state
}

/// A section of a row or none, as it is, with a state that breaks rule 11 too, and into a byte too few.
fn put(both: &mut Both, random: &mut Random, tune: &Tune, state: &[u8]) -> Result<(), String> {
    let call = Call::section(tune, state.to_vec(), random.one(&[0, 1, 1]), 0);
    let (mut of_state, mut of_output) = (call.clone(), Call::section(tune, state.to_vec(), 1, 0));
    let (place, byte) = random.one(&[(1, 64), (6, 64), (10, 0), (11, 31), (HEAD_BYTES + 45, 25)]);
    of_state.slots[3][place] = byte;
    of_output.slots[4].pop();
    for call in [call, of_state, of_output] {
        both.same(&call)?;
    }
    Ok(())
}

/// How many rows were walked from Open or from a state about the limits. No section may be refused for a level.
fn walk(both: &mut Both, random: &mut Random) -> Result<u64, String> {
    let (tune, mut rows) = (levels::any_tune(random), 0);
    let [.., mut state] = both.same(&Call::open(&tune))?.slots;
    if random.chance(50) {
        state = at_limits(random, &tune);
        // At the first order.
        state[0] = 0;
    }
    for _ in 0..SECTIONS {
        if le64(&state, 24) > MOST_START {
            break;
        }
        let n = random.one(&[1, 1, 2, 7, 30]);
        let answer = both.section(&Call::section(&tune, state, n, 3))?;
        if answer.refusal() > 0 {
            return Err(format!("refused by {}", answer.refusal()));
        }
        rows += answer.records().count() as u64;
        [_, _, _, state, _] = answer.slots;
    }
    Ok(rows)
}
