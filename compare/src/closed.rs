//! Small random tables about the edge of a closed tune to both functions that ask for it; closed tunes walked to their end;
//! what rust/ names as a breach, which a tune has exactly where it is not closed; and calls that break a rule.

use crate::both::Both;
use lomqashe::{Opening, Tune};
use oracle::calls::Call;
use oracle::closed::is_closed;
use oracle::generate::{self, closed, refused};
use oracle::random::Random;
use oracle::tune::{self, PATTERN_BYTES};

/// Every so many tunes one is as other comparisons have them, one has 100 patterns, and a closed one is walked.
const OTHER: u64 = 20;
const LARGE: u64 = 50;
const WALKED: u64 = 10;
const SECTION: u32 = 1_000;
/// 02: 'A closed tune ends within 16,384 rows an order'.
const MOST_AN_ORDER: usize = 16_384;

#[derive(Default)]
struct Told {
    closed: u64,
    walks: u64,
    rows: usize,
}

pub fn compare(random: &mut Random, tunes: u64) -> Result<String, String> {
    let (both, mut told) = (&mut Both::default(), Told::default());
    for n in 0..tunes {
        let tune = any(random, n);
        ask(both, &tune, n, &mut told).map_err(|why| format!("tune {n}: {why}"))?;
        both.same(&refused::closed_call(random))
            .map_err(|why| format!("refusal {n}: {why}"))?;
    }
    let Told { closed, walks, rows } = told;
    let calls = both.refusals();
    Ok(format!(
        "{closed} closed tunes of {tunes}, {walks} walked to their end in {rows} rows, {calls}"
    ))
}

fn any(random: &mut Random, n: u64) -> tune::Tune {
    if n.is_multiple_of(OTHER) {
        return generate::any_tune(random, n);
    }
    let mut tune = closed::tune(random);
    if n % LARGE == 1 {
        tune.cells = tune.cells.iter().copied().cycle().take(100 * PATTERN_BYTES).collect();
        tune.orders.iter_mut().for_each(|order| *order = random.between(0, 99));
    }
    tune
}

fn ask(both: &mut Both, tune: &tune::Tune, n: u64, told: &mut Told) -> Result<(), String> {
    let closed = both.same(&Call::is_closed(tune))?.number == 1;
    let [.., opened] = both.same(&Call::open_closed(tune))?.slots;
    if closed != is_closed(tune) || closed == ours(tune).first_breach().is_some() {
        return Err("rust/ finds otherwise".to_string());
    }
    told.closed += u64::from(closed);
    if closed && n % WALKED == 2 {
        told.walks += 1;
        told.rows += walk(both, tune, opened)?;
    }
    Ok(())
}

/// The tables as rust/ has them.
fn ours(tune: &tune::Tune) -> Tune {
    Tune {
        orders: tune.orders.clone(),
        samples: tune.samples.clone(),
        cells: tune.cells.clone(),
        opening: Opening::default(),
    }
}

/// How many rows both give to the end.
fn walk(both: &mut Both, tune: &tune::Tune, mut state: Vec<u8>) -> Result<usize, String> {
    let mut rows = 0;
    while rows <= MOST_AN_ORDER * tune.orders.len() {
        let answer = both.same(&Call::section(tune, state, SECTION, 0))?;
        rows += answer.records().count();
        if answer.number >> 16 == 1 {
            return Ok(rows);
        }
        [_, _, _, state, _] = answer.slots;
    }
    Err(format!("closed, but not ended behind {rows} rows"))
}
