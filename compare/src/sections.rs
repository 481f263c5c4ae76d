//! Sections of random tunes, from Open and from odd states, cut at random; now and then a large tune or a long section.

use crate::both::Both;
use oracle::calls::Call;
use oracle::generate;
use oracle::random::Random;
use oracle::rules::MOST_START;
use oracle::state::{CHANNEL_BYTES, HEAD_BYTES, State, TRANSPOSITION};
use oracle::tune::{PATTERN_BYTES, Tune, le32, le64};

/// States of a tune, and sections from each.
const STATES: usize = 20;
const SECTIONS: usize = 10;
/// Every so many tunes one has 100 patterns, one a section of hundreds of rows, and one a section of the most rows.
const LARGE: u64 = 50;
const LONG: u64 = 10;
const LONGEST: u64 = 500;

#[derive(Default)]
struct Told {
    tunes: u64,
    sections: u64,
    rows: u64,
    strikes: u64,
    /// Rows without a transposed channel, where the judge is the original alone; strikes of transposed channels.
    plain: u64,
    transposed: u64,
    ended: u64,
}

pub fn compare(seed: u64, rows: u64) -> Result<String, String> {
    let (mut both, mut told) = (Both::default(), Told::default());
    let mut number = seed;
    while told.rows < rows {
        sections(&mut both, number, &mut told).map_err(|why| format!("tune of seed {number}: {why}"))?;
        number += 1;
    }
    Ok(format!(
        "{} rows of {} tunes in {} sections, {} of them at an end, with {} strikes; {} rows at transposition 0, {} strikes \
         of transposed channels",
        told.rows, told.tunes, told.sections, told.ended, told.strikes, told.plain, told.transposed
    ))
}

/// Sections of one tune: the first state is Open's, the others are odd, and the last has ended.
fn sections(both: &mut Both, seed: u64, told: &mut Told) -> Result<(), String> {
    let random = &mut Random::new(seed);
    let mut tune = generate::any_tune(random, seed);
    let large = seed.is_multiple_of(LARGE);
    if large {
        enlarge(random, &mut tune);
    }
    told.tunes += 1;
    let [.., opened] = both.same(&Call::open(&tune))?.slots;
    let long = match seed {
        _ if seed.is_multiple_of(LONGEST) => 65_535,
        _ if seed.is_multiple_of(LONG) => 100 + random.below(900) as u32,
        _ => 0,
    };
    section(both, &Call::section(&tune, opened.clone(), long, 3), told)?;
    for i in 0..if large { 3 } else { STATES } {
        let mut odd = generate::odd_bytes(random, &tune);
        odd[9] = u8::from(i == STATES - 1);
        let start = match i {
            0 => opened.clone(),
            _ if i % 2 == 1 => odd,
            _ => State::decode(&odd).encode(),
        };
        walk(both, random, &tune, start, told).map_err(|why| format!("state {i}: {why}"))?;
    }
    Ok(())
}

/// The cells over and over, to 100 patterns that the orders name.
fn enlarge(random: &mut Random, tune: &mut Tune) {
    tune.cells = tune.cells.iter().copied().cycle().take(100 * PATTERN_BYTES).collect();
    tune.orders.iter_mut().for_each(|order| *order = random.between(0, 99));
}

/// A few sections one behind the other, of 0 to 30 rows each.
fn walk(both: &mut Both, random: &mut Random, tune: &Tune, mut state: Vec<u8>, told: &mut Told) -> Result<(), String> {
    for i in 0..SECTIONS {
        // Beyond rule 11 a section is refused: refusals.rs has those.
        if le64(&state, 24) > MOST_START {
            break;
        }
        let n = random.one(&[0, 1, 1, 2, 3, 7, 12, 30]);
        let call = Call::section(tune, state, n, 7);
        state = section(both, &call, told).map_err(|why| format!("section {i} of {n}: {why}"))?;
    }
    Ok(())
}

/// The state behind a section.
fn section(both: &mut Both, call: &Call, told: &mut Told) -> Result<Vec<u8>, String> {
    let answer = both.section(call)?;
    let transposed = transposed(&call.slots[3]);
    told.sections += 1;
    for record in answer.records() {
        let mask = le32(record, 16);
        told.rows += 1;
        told.plain += u64::from(transposed == 0);
        told.strikes += u64::from(mask.count_ones());
        told.transposed += u64::from((mask & transposed).count_ones());
    }
    told.ended += u64::from(answer.number >> 16);
    let [_, _, _, state, _] = answer.slots;
    Ok(state)
}

/// A bit for each channel of a state that is transposed.
fn transposed(state: &[u8]) -> u32 {
    let channels = state[HEAD_BYTES..].chunks_exact(CHANNEL_BYTES).enumerate();
    channels.map(|(k, part)| u32::from(part[TRANSPOSITION] != 0) << k).sum()
}
