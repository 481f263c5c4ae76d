//! Tables, opening values, states, outputs, records and lengths that break a rule or several: the number is that of the
//! first, and nothing is written.

use crate::both::Both;
use oracle::calls::Call;
use oracle::generate::{self, Purpose, refused};
use oracle::random::Random;

/// Calls on each tune.
const CALLS: usize = 3;

pub fn compare(random: &mut Random, tunes: u64) -> Result<String, String> {
    let both = &mut Both::default();
    for n in 0..tunes {
        let tune = generate::tune(random, Purpose::Visits, n);
        for _ in 0..CALLS {
            both.same(&refused::call(random, &tune))
                .map_err(|why| format!("tune {n}: {why}"))?;
        }
    }
    most(both, random)?;
    Ok(both.refusals())
}

/// One row more than the most, into an output that has the bytes for it.
fn most(both: &mut Both, random: &mut Random) -> Result<(), String> {
    let tune = generate::tune(random, Purpose::Walks, 1);
    let state = generate::odd_bytes(random, &tune);
    both.same(&Call::section(&tune, state, 65_536, 0)).map(|_| ())
}
