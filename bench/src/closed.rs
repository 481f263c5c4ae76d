//! Whether a tune is closed: the library beside a plain loop that reads the same cells, on closed tunes of 100 patterns.

use crate::clock::{best, mean, spread};
use crate::rows::ours;
use crate::tunes::{KINDS, Kind, SEEDS};
use lomqashe::Tune;
use oracle::random::Random;
use oracle::tune::{CELL, PATTERN_BYTES, ROW_BYTES};
use std::hint::black_box;

pub const PATTERNS: usize = 100;
/// Kinds of tunes, and tunes of which each cell has S or B.
const NAMES: [&str; 4] = [STEERED, "dense", "sparse", "empty"];
const STEERED: &str = "steered";
const B: u8 = 2;
const S: u8 = 19;

/// The tunes of a name for each seed.
pub fn named(name: &str) -> Option<[Tune; SEEDS.len()]> {
    if name == STEERED {
        return Some(SEEDS.map(steered));
    }
    Kind::named(name).map(|kind| kind.tunes().map(|tune| enlarged(ours(&tune))))
}

/// In each cell an S that is neither a recall nor a loop, or a B behind all orders.
fn steered(seed: u64) -> Tune {
    let random = &mut Random::new(seed);
    let mut tune = ours(&KINDS[0].tune(seed));
    for cell in tune.cells.chunks_exact_mut(CELL) {
        let special = random.between(1, 0xAF);
        cell[3..].copy_from_slice(&random.one(&[[S, special], [B, 255]]));
    }
    enlarged(tune)
}

/// Its patterns over and over, each with a loop and a jump behind its last place.
fn enlarged(mut tune: Tune) -> Tune {
    tune.cells = tune
        .cells
        .iter()
        .copied()
        .cycle()
        .take(PATTERNS * PATTERN_BYTES)
        .collect();
    tune.orders = (0..=254).map(|place| place % PATTERNS as u8).collect();
    for pattern in tune.cells.chunks_exact_mut(PATTERN_BYTES) {
        pattern[9 * ROW_BYTES + 3..][..2].copy_from_slice(&[S, 0xB2]);
        pattern[63 * ROW_BYTES + 3..][..2].copy_from_slice(&[B, 255]);
    }
    tune
}

pub fn library(tune: &Tune) -> bool {
    tune.is_closed().expect("the tables are a tune's")
}

/// One pass over the cells; the last place of each pattern is found before.
#[inline(never)]
pub fn plain(tune: &Tune) -> bool {
    let mut last = [None; 256];
    for (place, &order) in tune.orders.iter().enumerate() {
        last[usize::from(order)] = Some(place);
    }
    let mut patterns = tune.cells.chunks_exact(PATTERN_BYTES).zip(last);
    patterns.all(|(cells, last)| keeps(cells, last))
}

/// Whether a pattern keeps the tune closed.
fn keeps(cells: &[u8], last: Option<usize>) -> bool {
    let mut loops = 0;
    for row in cells.chunks_exact(ROW_BYTES) {
        let mut request = 0;
        for cell in row.chunks_exact(CELL) {
            match (cell[3], cell[4]) {
                (S, 0) => return false,
                (S, info) if info >> 4 == 0xB => request = info & 15,
                (B, target) if last >= Some(usize::from(target)) => return false,
                _ => {}
            }
        }
        loops += u32::from(request > 0);
    }
    loops < 2
}

/// False where the two differ, or a tune is not closed.
pub fn table() -> bool {
    println!("closed: microseconds a tune of {PATTERNS} patterns");
    println!("tune    | library | plain loop | library to plain loop");
    for name in NAMES {
        let tunes = named(name).expect("each is named");
        if !tunes.iter().all(|tune| library(tune) && plain(tune)) {
            println!("{name}: not closed");
            return false;
        }
        let lines = tunes.each_ref().map(times);
        println!(
            "{name:7} | {:7.1} | {:10.1} | {}",
            mean(&lines, 0),
            mean(&lines, 1),
            spread(lines.map(|[library, plain]| library / plain)),
        );
    }
    true
}

fn times(tune: &Tune) -> [f64; 2] {
    let times = best(&mut [
        &mut || {
            black_box(library(black_box(tune)));
        },
        &mut || {
            black_box(plain(black_box(tune)));
        },
    ]);
    times.map(|ns| ns / 1000.0)
}
