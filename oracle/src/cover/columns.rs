//! Stored and restored records: which numbers of them, which bytes meet which, what is refused, and that each call undoes the
//! other. What a call writes is worked out here byte by byte from its place, apart from `crate::columns`.

use super::Tally;
use crate::calls::Function;
use crate::list::Case;
use crate::tune::RECORD_BYTES;

const PREFIXES: [&str; 2] = ["store: ", "restore: "];
/// Small ones, those about the library's tiles of 16 behind the first record, and the most that a room has.
const RECORDS: [usize; 9] = [1, 2, 3, 16, 17, 18, 33, 34, 122];
/// Of the last six, records at which tiles begin and end, and at the ends.
const TELLING: [(usize, &[usize]); 6] = [
    (16, &[0, 1, 15]),
    (17, &[0, 1, 16]),
    (18, &[0, 1, 2, 16, 17]),
    (33, &[0, 1, 16, 17, 32]),
    (34, &[0, 1, 16, 17, 18, 32, 33]),
    (122, &[0, 1, 16, 17, 32, 33, 106, 113, 121]),
];
/// Bytes at which differences wrap or nearly do.
const EDGES: [u8; 8] = [0, 1, 3, 5, 127, 128, 254, 255];
/// How far sizes are off, and of how many records.
const OFF: [isize; 5] = [-536, -1, 0, 1, 536];
const REFUSED: [usize; 3] = [1, 3, 17];
/// None of them in the span; most have the low bits of one that is, or its product with 536 in 32 bits.
#[rustfmt::skip]
const OUTSIDE: [u32; 11] = [
    0, 65_536, 65_537, 65_538, 131_073, 16_777_217, 536_870_912, 536_870_913, 2_147_483_648, 2_147_483_650, u32::MAX,
];
const LENGTHS: [usize; 3] = [0, 536, 1_072];

pub fn needs(tally: &mut Tally) {
    for prefix in PREFIXES {
        tally.prefix = prefix;
        tally.family("{} records", RECORDS);
        tally.family("{} records undone", RECORDS);
        tally.family("first byte {}", 0..=255);
        tally.family("difference {}", 0..=255);
        tally.pairs("{} behind {}", EDGES, &EDGES);
        tally.pairs("difference {} behind {}", EDGES, &EDGES);
        tally.family("column {} tells", 0..RECORD_BYTES);
        for (m, records) in TELLING {
            tally.pairs("of {} records number {} tells", [m], records);
        }
        for (m, input) in REFUSED.into_iter().flat_map(|m| OFF.map(|input| (m, input))) {
            let off = OFF.into_iter().filter(|&output| (input, output) != (0, 0));
            tally.family(&format!("{m} records, input {input} off, output {{}} off"), off);
        }
        for m in OUTSIDE {
            tally.pairs(&format!("m {m} with {{}} and {{}} bytes"), LENGTHS, &LENGTHS);
        }
    }
    tally.prefix = "";
}

/// The last call that was taken: which, and its input and output.
#[derive(Default)]
pub struct Stored {
    last: Option<(Function, [Vec<u8>; 2])>,
}

impl Stored {
    /// A call that was not refused.
    pub fn see(&mut self, tally: &mut Tally, case: &Case, from_sections: bool) -> Result<(), String> {
        let (function, m) = (case.call.function, case.call.number as usize);
        let [input, output, ..] = &case.answer.slots;
        let stores = function == Function::Store;
        let by_place = if stores { stored } else { restored };
        let expected = (0..output.len()).map(|at| by_place(input, m, at));
        let kept = case.answer.number == 0 && *input == case.call.slots[0];
        if !kept || is_refused(case) || !expected.eq(output.iter().copied()) {
            return Err("what is written is not that of 02".to_string());
        }
        tally.prefix = prefix(function);
        tally.note(format!("{m} records"));
        tally.anywhere([(m > 1 && from_sections, "rows that sections gave")]);
        let [records, columns] = if stores { [input, output] } else { [output, input] };
        for column in 0..RECORD_BYTES {
            see_column(tally, m, records, columns, column);
        }
        match self.last.replace((function, [input.clone(), output.clone()])) {
            // 02: 'Storing then restoring is the identity, and restoring then storing too.'
            Some((other, [before, behind])) if other != function && behind == *input => {
                tally.note(format!("{m} records undone"));
                let undoes = before == *output;
                undoes.then_some(()).ok_or("it does not undo the other".to_string())
            }
            _ => Ok(()),
        }
    }
}

/// A call that was refused: it leaves all as it was.
pub fn refused(tally: &mut Tally, case: &Case) -> Result<(), String> {
    let m = case.call.number;
    let [input, output] = lengths(case);
    tally.prefix = prefix(case.call.function);
    let [input_off, output_off] = [input, output].map(|length| length as i64 - i64::from(m) * RECORD_BYTES as i64);
    tally.note(format!("{m} records, input {input_off} off, output {output_off} off"));
    tally.note(format!("m {m} with {input} and {output} bytes"));
    let kept = case.answer.slots == case.call.slots;
    let sound = kept && is_refused(case) && case.answer.number == 16 << 24;
    sound.then_some(()).ok_or("the refusal is not that of 02".to_string())
}

fn prefix(function: Function) -> &'static str {
    PREFIXES[usize::from(function == Function::Restore)]
}

fn lengths(case: &Case) -> [usize; 2] {
    [0, 1].map(|slot| case.call.slots[slot].len())
}

/// Whether rule 16 refuses a call, apart from `crate::rules`.
fn is_refused(case: &Case) -> bool {
    let m = case.call.number as usize;
    m == 0
        || m >= 65_536
        || lengths(case)
            .iter()
            .any(|bytes| bytes / RECORD_BYTES != m || bytes % RECORD_BYTES != 0)
}

/// A byte of the columns of m records, by its place.
fn stored(records: &[u8], m: usize, at: usize) -> u8 {
    let (column, record) = (at / m, at % m);
    let byte = |record: usize| i32::from(records[record * RECORD_BYTES + column]);
    let before = if record == 0 { 0 } else { byte(record - 1) };
    (byte(record) - before).rem_euclid(256) as u8
}

/// A byte of m records, by its place: the sum of its column up to it.
fn restored(columns: &[u8], m: usize, at: usize) -> u8 {
    let (record, column) = (at / RECORD_BYTES, at % RECORD_BYTES);
    let up_to = &columns[column * m..][..=record];
    (up_to.iter().map(|&byte| usize::from(byte)).sum::<usize>() % 256) as u8
}

fn see_column(tally: &mut Tally, m: usize, records: &[u8], columns: &[u8], column: usize) {
    let byte = |record: usize| records[record * RECORD_BYTES + column];
    let stored = &columns[column * m..][..m];
    if m > 1 {
        tally.note(format!("first byte {}", stored[0]));
    }
    for (record, difference) in stored.iter().enumerate().skip(1) {
        let before = byte(record - 1);
        tally.note(format!("difference {difference}"));
        tally.note(format!("{} behind {before}", byte(record)));
        tally.note(format!("difference {difference} behind {before}"));
    }
    // Unlike the columns beside it, and behind one with a last byte that a difference would show.
    let others = [column.checked_sub(1), Some(column + 1)].into_iter().flatten();
    let mut others = others.filter_map(|other| columns.chunks_exact(m).nth(other));
    let behind = column == 0 || records[(m - 1) * RECORD_BYTES + column - 1] != 0;
    if m > 1 && behind && others.all(|other| other != stored) {
        tally.note(format!("column {column} tells"));
    }
    // Unlike the bytes above and below it.
    for record in 0..m {
        let beside = [record.checked_sub(1), Some(record + 1)].into_iter().flatten();
        let mut beside = beside.filter_map(|other| stored.get(other));
        if beside.all(|&other| other != stored[record]) {
            tally.note(format!("of {m} records number {record} tells"));
        }
    }
}
