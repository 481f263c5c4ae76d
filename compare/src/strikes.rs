//! Strikes of records that no section gives: frequencies of every kind that a float has, many of them equal or nearly so.

use crate::both::Both;
use oracle::calls::{Call, Function};
use oracle::generate::records;
use oracle::random::Random;

/// What the output has.
const OUTPUTS: [usize; 4] = [32, 33, 64, 535];

pub fn compare(random: &mut Random, records: u64) -> Result<String, String> {
    let both = &mut Both::default();
    let (mut strikes, mut moved) = (0, 0);
    for n in 0..records {
        let call = Call::of_record(Function::Strikes, &records::any(random), random.one(&OUTPUTS));
        let answer = both.same(&call).map_err(|why| format!("record {n}: {why}"))?;
        strikes += u64::from(answer.number);
        moved += u64::from(!answer.slots[1][..answer.number as usize].is_sorted());
    }
    Ok(format!(
        "{strikes} strikes of {} records, {moved} of them not in the order of channels",
        both.calls
    ))
}
