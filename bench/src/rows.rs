//! Walking rows: the library beside the original.

use crate::clock::{best, mean, spread};
use crate::path;
use crate::tunes::{KINDS, Kind};
use lomqashe::{RECORD_BYTES, Tune};
use oracle::player::bridge::{Original, open};
use oracle::tune::{self, ROW_BYTES};
use oracle::writer;
use std::hint::black_box;

/// Rows of one section, where nothing else is said.
pub const SECTION: u32 = 1_000;
const MOST: usize = 65_535;
const SECTIONS: [u32; 4] = [1, 10, 100, 1_000];

pub fn ours(theirs: &tune::Tune) -> Tune {
    let file = writer::write(theirs);
    let mut tune = Tune::read(&file, theirs.opening.rate).expect("the writer writes good files");
    // As the original has them: what the format cannot say stays.
    tune.orders.clone_from(&theirs.orders);
    tune.samples.clone_from(&theirs.samples);
    tune.cells.clone_from(&theirs.cells);
    tune
}

/// All rows, in sections of so many into one output.
pub fn walk(tune: &Tune, section: u32, output: &mut [u8]) -> usize {
    let mut state = tune.open().expect("it opens");
    let mut rows = 0;
    loop {
        let given = tune.section(&mut state, section, output).expect("the state is ours");
        rows += given.rows;
        if given.ended {
            return rows;
        }
    }
}

/// Both give the same records, and the path alone as many rows; a voice is none or some.
fn same(theirs: &tune::Tune) -> bool {
    let tune = ours(theirs);
    let mut state = tune.open().expect("it opens");
    let mut output = vec![0; MOST * RECORD_BYTES];
    let rows = tune
        .section(&mut state, MOST as u32, &mut output)
        .expect("the state is ours")
        .rows;
    let mut expected = vec![0; MOST * RECORD_BYTES];
    let original = Original::new(theirs).rows_recorded(&open(theirs).encode(), MOST, &mut expected);
    for record in output.chunks_exact_mut(RECORD_BYTES) {
        for channel in record[24..].chunks_exact_mut(16) {
            channel[15] = channel[15].min(1);
        }
    }
    rows == original && rows == path::rows(theirs) && output == expected
}

/// The bytes that a row must read and write: its cells in, its record out.
fn copy(cells: &[u8], rows: usize, record: &[u8; RECORD_BYTES], output: &mut [u8]) {
    let mut read = [0; ROW_BYTES];
    let from = cells.chunks_exact(ROW_BYTES).cycle();
    let to = (0..output.len()).step_by(RECORD_BYTES).cycle();
    for (cells, at) in from.zip(to).take(rows) {
        read.copy_from_slice(cells);
        black_box(&read);
        output[at..at + RECORD_BYTES].copy_from_slice(record);
    }
}

/// ns a row: the floor, the path alone, the library, the original, the original with records.
fn times(theirs: &tune::Tune) -> [f64; 5] {
    let tune = ours(theirs);
    let mut original = Original::new(theirs);
    let mut again = Original::new(theirs);
    let opened = open(theirs).encode();
    let mut output = vec![0; SECTION as usize * RECORD_BYTES];
    let rows = walk(&tune, SECTION, &mut output);
    let mut floor = output.clone();
    let mut recorded = vec![0; rows * RECORD_BYTES];
    let times = best(&mut [
        &mut || {
            copy(
                black_box(&tune.cells),
                rows,
                black_box(&[1; RECORD_BYTES]),
                black_box(&mut floor),
            );
        },
        &mut || {
            black_box(path::rows(black_box(theirs)));
        },
        &mut || {
            walk(black_box(&tune), SECTION, black_box(&mut output));
        },
        &mut || {
            black_box(original.rows_alone(black_box(&opened), MOST));
        },
        &mut || {
            black_box(again.rows_recorded(black_box(&opened), MOST, black_box(&mut recorded)));
        },
    ]);
    times.map(|ns| ns / rows as f64)
}

/// False where the records differ.
pub fn table() -> bool {
    println!("rows: ns each, sections of {SECTION} rows");
    println!("tune   | floor | path alone | library | original | with records | library to with records");
    for kind in &KINDS {
        let tunes = kind.tunes();
        if !tunes.iter().all(same) {
            println!("{}: the records differ", kind.name);
            return false;
        }
        let lines = tunes.each_ref().map(times);
        println!(
            "{:6} | {:5.1} | {:10.1} | {:7.1} | {:8.1} | {:12.1} | {}",
            kind.name,
            mean(&lines, 0),
            mean(&lines, 1),
            mean(&lines, 2),
            mean(&lines, 3),
            mean(&lines, 4),
            spread(lines.map(|[_, _, library, _, with]| library / with)),
        );
    }
    true
}

/// The library's ns a row by the size of a section.
pub fn sections() {
    println!("sections: ns a row of the library, by the rows of a section");
    println!(
        "tune   | {:>7} | {:>7} | {:>7} | {:>7}",
        SECTIONS[0], SECTIONS[1], SECTIONS[2], SECTIONS[3]
    );
    for kind in &KINDS[..4] {
        let [one, ten, hundred, thousand] = by_section(kind);
        println!(
            "{:6} | {one:7.1} | {ten:7.1} | {hundred:7.1} | {thousand:7.1}",
            kind.name
        );
    }
}

fn by_section(kind: &Kind) -> [f64; SECTIONS.len()] {
    let tunes = kind.tunes().map(|theirs| ours(&theirs));
    let mut output = vec![0; SECTION as usize * RECORD_BYTES];
    let rows = walk(&tunes[0], SECTION, &mut output);
    SECTIONS.map(|section| {
        let [ns] = best(&mut [&mut || {
            walk(black_box(&tunes[0]), section, black_box(&mut output));
        }]);
        ns / rows as f64
    })
}
