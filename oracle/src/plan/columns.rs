//! Stored and restored records: recorded rows, bytes at which differences wrap, numbers of records about the library's
//! tiles of 16, each way to break rule 16, and random ones. Each chosen one that is taken is undone by the other call.

use crate::calls::{Call, Function};
use crate::generate::columns::{self, EDGES};
use crate::list::Case;
use crate::random::Random;
use crate::tune::RECORD_BYTES;

const BOTH: [Function; 2] = [Function::Store, Function::Restore];
/// How many recorded rows are stored at once.
const ROWS: [usize; 3] = [1, 2, 4];
/// About one tile and two behind the first record, and the most that a room of the list has.
const LARGE: [usize; 6] = [16, 17, 18, 33, 34, 122];
/// What columns go up by, over and over.
const STEPS: [u8; 5] = [1, 171, 85, 255, 3];
/// Where bytes are set among zeros, and in the last record. Of 122 records the last tile begins at 106, the one before ends
/// at 113.
const SPARSE_RECORDS: [usize; 8] = [0, 1, 16, 17, 32, 33, 106, 113];
const SPARSE_COLUMNS: [usize; 5] = [0, 1, 267, 534, 535];
const RANDOM: usize = 8;
const MOST_RANDOM: u32 = 2;

/// What lies in the input of a call that is refused.
const FILL: u8 = 0x5A;
/// Numbers of records whose sizes are off, and how far.
const REFUSED: [u32; 3] = [1, 3, 17];
const OFF: [isize; 5] = [-536, -1, 0, 1, 536];
/// None of them in the span; most have the low bits of one that is, or its product with 536 in 32 bits.
#[rustfmt::skip]
const OUTSIDE: [u32; 11] = [
    0, 65_536, 65_537, 65_538, 131_073, 1 << 24 | 1, 1 << 29, 1 << 29 | 1, 1 << 31, 1 << 31 | 2, u32::MAX,
];

/// The calls, some of them on rows of the list.
pub fn cases(rows: &[&[u8]]) -> Vec<Case> {
    let stored = records(rows)
        .into_iter()
        .flat_map(|input| undone(Function::Store, &input));
    let restored = stored_columns()
        .into_iter()
        .flat_map(|input| undone(Function::Restore, &input));
    let refused = BOTH
        .into_iter()
        .flat_map(|function| sizes(function).chain(outside(function)));
    let random = &mut Random::new(RANDOM as u64);
    let random = (0..RANDOM).map(|_| columns::call(random, MOST_RANDOM));
    stored
        .chain(restored)
        .chain(refused.chain(random).map(Case::of))
        .collect()
}

/// A call that is taken, and the other one on what it gave.
fn undone(function: Function, input: &[u8]) -> [Case; 2] {
    let m = (input.len() / RECORD_BYTES) as u32;
    let of = |function, input: &[u8]| Case::of(Call::of_columns(function, m, input, input.len()));
    let other = BOTH[usize::from(function == Function::Store)];
    let done = of(function, input);
    let back = of(other, &done.answer.slots[1]);
    [done, back]
}

/// What is stored.
fn records(rows: &[&[u8]]) -> Vec<Vec<u8>> {
    let mut rows = rows.iter().cycle();
    let recorded = ROWS.map(|m| rows.by_ref().take(m).copied().collect::<Vec<_>>().concat());
    let chosen = [
        by_record(2, paired),
        by_record(3, |record, column| (record + 1) * column),
    ];
    let large = LARGE.map(|m| {
        let dense = |record, column: usize| (record + 1) * usize::from(STEPS[column % STEPS.len()]);
        [
            by_record(m, dense),
            by_record(m, |record, column| sparse(m, record, column)),
        ]
    });
    recorded
        .into_iter()
        .chain(chosen)
        .chain(large.into_iter().flatten())
        .collect()
}

/// What is restored; recorded rows and dense columns are what was stored of them.
fn stored_columns() -> Vec<Vec<u8>> {
    let counted = |record, column| 85 * record + column;
    let chosen = [by_column(1, counted), by_column(2, paired), by_column(3, counted)];
    let large = LARGE.map(|m| by_column(m, |record, column| sparse(m, record, column)));
    chosen.into_iter().chain(large).collect()
}

/// The low bytes of these numbers, record by record.
fn by_record(m: usize, number: impl Fn(usize, usize) -> usize) -> Vec<u8> {
    let places = 0..m * RECORD_BYTES;
    places
        .map(|at| number(at / RECORD_BYTES, at % RECORD_BYTES) as u8)
        .collect()
}

/// The same, column by column.
fn by_column(m: usize, number: impl Fn(usize, usize) -> usize) -> Vec<u8> {
    (0..m * RECORD_BYTES).map(|at| number(at % m, at / m) as u8).collect()
}

/// Every two of the edges in the first 64 columns of two records, and again behind them.
fn paired(record: usize, column: usize) -> usize {
    let edge = if record == 0 { column } else { column / EDGES.len() };
    EDGES[edge % EDGES.len()].into()
}

/// Zeros but in a few records by a few columns, where no two are alike.
fn sparse(m: usize, record: usize, column: usize) -> usize {
    let last = (record == m - 1).then_some(SPARSE_RECORDS.len());
    let record = SPARSE_RECORDS.iter().position(|&at| at == record).or(last);
    let column = SPARSE_COLUMNS.iter().position(|&at| at == column);
    let [Some(record), Some(column)] = [record, column] else {
        return 0;
    };
    1 + 37 * (record * SPARSE_COLUMNS.len() + column)
}

/// Sizes of which one or both are off.
fn sizes(function: Function) -> impl Iterator<Item = Call> {
    let both = OFF.into_iter().flat_map(|input| OFF.map(|output| (input, output)));
    let off = both.filter(|&off| off != (0, 0));
    let each = REFUSED
        .into_iter()
        .flat_map(move |m| off.clone().map(move |off| (m, off)));
    each.map(move |(m, (input, output))| {
        let length = |off| (m as usize * RECORD_BYTES).saturating_add_signed(off);
        Call::of_columns(function, m, &vec![FILL; length(input)], length(output))
    })
}

/// An m outside its span, with no record, one and two on each side.
fn outside(function: Function) -> impl Iterator<Item = Call> {
    let lengths = [0, 1, 2].map(|records| records * RECORD_BYTES);
    let lengths = lengths
        .into_iter()
        .flat_map(move |input| lengths.map(|output| (input, output)));
    let each = OUTSIDE
        .into_iter()
        .flat_map(move |m| lengths.clone().map(move |lengths| (m, lengths)));
    each.map(move |(m, (input, output))| Call::of_columns(function, m, &vec![FILL; input], output))
}
