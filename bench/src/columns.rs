//! Records in columns: the library beside plain Rust and beside a copy of the same bytes.

use crate::clock::{ROUNDS, best_of, mean, spread};
use crate::records;
use crate::tunes::SEEDS;
use lomqashe::RECORD_BYTES;
use std::cell::RefCell;
use std::hint::black_box;

/// Takes bytes and the number of records, writes the output whole, or answers `REFUSED` and writes nothing.
pub type Call = fn(&[u8], u32, &mut [u8]) -> u32;

/// The library, column by column, record by record.
pub const WAYS: usize = 3;
pub const STORES: [Call; WAYS] = [library_store, store_by_columns, store_by_records];
pub const RESTORES: [Call; WAYS] = [library_restore, restore_by_columns, restore_by_records];

/// How many records, and in how many rounds: 16 are too few for a tile of the library, and of the last a plain call takes a
/// tenth of a second and more.
const SIZES: [(usize, usize); 4] = [(16, ROUNDS), (100, ROUNDS), (5_000, ROUNDS), (MOST, 9)];
const MOST: usize = 65_535;
/// Rule 16 as the C functions answer it.
const REFUSED: u32 = 16 << 24;

mod raw {
    unsafe extern "C" {
        pub fn lomqashe_store(
            records: *const u8,
            records_len: usize,
            m: u32,
            columns: *mut u8,
            columns_len: usize,
        ) -> u32;
        pub fn lomqashe_restore(
            columns: *const u8,
            columns_len: usize,
            m: u32,
            records: *mut u8,
            records_len: usize,
        ) -> u32;
    }
}

fn library_store(records: &[u8], m: u32, columns: &mut [u8]) -> u32 {
    // SAFETY: the function asks nothing but that both slices are alive.
    unsafe { raw::lomqashe_store(records.as_ptr(), records.len(), m, columns.as_mut_ptr(), columns.len()) }
}

fn library_restore(columns: &[u8], m: u32, records: &mut [u8]) -> u32 {
    // SAFETY: as above.
    unsafe { raw::lomqashe_restore(columns.as_ptr(), columns.len(), m, records.as_mut_ptr(), records.len()) }
}

/// Whether a plain call takes its arguments.
fn fits(m: u32, input: &[u8], output: &[u8]) -> bool {
    let (m, sizes) = (m as usize, [input.len(), output.len()]);
    (1..=MOST).contains(&m) && sizes == [m * RECORD_BYTES; 2]
}

fn store_by_columns(records: &[u8], m: u32, columns: &mut [u8]) -> u32 {
    if !fits(m, records, columns) {
        return REFUSED;
    }
    for (c, column) in columns.chunks_exact_mut(m as usize).enumerate() {
        let mut before = 0;
        for (difference, record) in column.iter_mut().zip(records.chunks_exact(RECORD_BYTES)) {
            *difference = record[c].wrapping_sub(before);
            before = record[c];
        }
    }
    0
}

fn store_by_records(records: &[u8], m: u32, columns: &mut [u8]) -> u32 {
    if !fits(m, records, columns) {
        return REFUSED;
    }
    let mut before = [0; RECORD_BYTES];
    for (r, record) in records.chunks_exact(RECORD_BYTES).enumerate() {
        for (c, (&byte, before)) in record.iter().zip(&mut before).enumerate() {
            columns[c * m as usize + r] = byte.wrapping_sub(*before);
            *before = byte;
        }
    }
    0
}

fn restore_by_columns(columns: &[u8], m: u32, records: &mut [u8]) -> u32 {
    if !fits(m, columns, records) {
        return REFUSED;
    }
    for (c, column) in columns.chunks_exact(m as usize).enumerate() {
        let mut sum = 0_u8;
        for (&difference, record) in column.iter().zip(records.chunks_exact_mut(RECORD_BYTES)) {
            sum = sum.wrapping_add(difference);
            record[c] = sum;
        }
    }
    0
}

fn restore_by_records(columns: &[u8], m: u32, records: &mut [u8]) -> u32 {
    if !fits(m, columns, records) {
        return REFUSED;
    }
    let mut sums = [0_u8; RECORD_BYTES];
    for (r, record) in records.chunks_exact_mut(RECORD_BYTES).enumerate() {
        for (c, (byte, sum)) in record.iter_mut().zip(&mut sums).enumerate() {
            *sum = sum.wrapping_add(columns[c * m as usize + r]);
            *byte = *sum;
        }
    }
    0
}

/// All ways of a call answer the same and leave the same bytes in an output of so many.
fn same(ways: [Call; WAYS], input: &[u8], m: usize, output: usize) -> bool {
    let [library, by_columns, by_records] = ways.map(|call| {
        let mut written = vec![0xA5; output];
        (call(input, m as u32, &mut written), written)
    });
    library == by_columns && library == by_records
}

/// The same columns and the same records again, and the same calls refused: records or bytes too few or too many.
fn compared(records: &[u8], columns: &[u8]) -> bool {
    let (m, size) = (records.len() / RECORD_BYTES, records.len());
    [(STORES, records), (RESTORES, columns)]
        .into_iter()
        .all(|(ways, input)| {
            let counts = [0, m - 1, m, m + 1, MOST + 1].map(|m| same(ways, input, m, size));
            let inputs = [&input[1..], &input[..size - RECORD_BYTES]].map(|input| same(ways, input, m, size));
            let outputs = [0, size - 1, size + 1].map(|output| same(ways, input, m, output));
            [&counts[..], &inputs, &outputs].concat().into_iter().all(|same| same)
        })
}

/// So many records and their columns, by plain Rust.
pub fn both(seed: u64, m: usize) -> [Vec<u8>; 2] {
    let records = records::mixed(seed, m);
    let mut columns = vec![0; records.len()];
    assert_eq!(
        store_by_records(&records, m as u32, &mut columns),
        0,
        "they are so many"
    );
    [records, columns]
}

/// ns a record: the copy, then each way to store and each to restore, all into one output.
fn times([records, columns]: &[Vec<u8>; 2], rounds: usize) -> [f64; 1 + 2 * WAYS] {
    let m = records.len() / RECORD_BYTES;
    let output = RefCell::new(records.clone());
    let call = |call: Call, input| {
        black_box(call(black_box(input), m as u32, black_box(&mut output.borrow_mut())));
    };
    let times = best_of(
        rounds,
        &mut [
            &mut || black_box(&mut output.borrow_mut()).copy_from_slice(black_box(records)),
            &mut || call(STORES[0], records),
            &mut || call(STORES[1], records),
            &mut || call(STORES[2], records),
            &mut || call(RESTORES[0], columns),
            &mut || call(RESTORES[1], columns),
            &mut || call(RESTORES[2], columns),
        ],
    );
    times.map(|ns| ns / m as f64)
}

/// A line of a call, whose ways are timed from column k on.
fn line(name: &str, m: usize, lines: &[[f64; 1 + 2 * WAYS]], k: usize) {
    println!(
        "{name:7} | {m:7} | {:5.1} | {:7.1} | {:10.1} | {:10.1} | {:21} | {}",
        mean(lines, 0),
        mean(lines, k),
        mean(lines, k + 1),
        mean(lines, k + 2),
        spread(lines.iter().map(|line| line[k] / line[k + 1].min(line[k + 2]))),
        spread(lines.iter().map(|line| line[k] / line[0])),
    );
}

/// False where bytes or answers differ.
pub fn table() -> bool {
    println!("columns: ns a record");
    println!("call    | records |  copy | library | by columns | by records | library to the better | library to copy");
    for (m, rounds) in SIZES {
        let seeds = SEEDS.map(|seed| both(seed, m));
        if !seeds.iter().all(|[records, columns]| compared(records, columns)) {
            println!("{m}: the columns or the records differ");
            return false;
        }
        let lines = seeds.each_ref().map(|bytes| times(bytes, rounds));
        line("store", m, &lines, 1);
        line("restore", m, &lines, 1 + WAYS);
    }
    true
}
