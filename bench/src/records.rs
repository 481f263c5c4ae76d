//! The records that are listed, loaded, struck and stored: rows of several tunes.

use crate::rows::ours;
use crate::tunes::{KINDS, Kind, SEEDS};
use lomqashe::Record;

/// The rows of a tune's four patterns, and the tunes: of fewer lists the machine learns how a sort's comparisons go.
const ROWS: usize = 256;
const TUNES: usize = 8;
pub const RECORDS: usize = TUNES * ROWS;

/// The records of a kind for each seed.
pub fn of_kind(kind: &Kind) -> [Vec<Record>; SEEDS.len()] {
    SEEDS.map(|seed| of_tunes(kind, seed))
}

fn of_tunes(kind: &Kind, seed: u64) -> Vec<Record> {
    let tunes = (seed..)
        .step_by(SEEDS.len())
        .take(TUNES)
        .map(|seed| ours(&kind.tune(seed)));
    let rows = tunes.flat_map(|tune| tune.rows(50).expect("it opens").take(ROWS).collect::<Vec<_>>());
    rows.collect()
}

/// The bytes of so many records: as many rows of a tune of each kind, one kind behind the other.
pub fn mixed(seed: u64, records: usize) -> Vec<u8> {
    let each = records.div_ceil(KINDS.len());
    let tunes = KINDS.iter().map(|kind| ours(&kind.tune(seed)));
    let rows = tunes.flat_map(|tune| tune.rows(1_000).expect("it opens").take(each).collect::<Vec<_>>());
    rows.take(records).flat_map(|record| *record.as_bytes()).collect()
}
