//! Strikes: the library beside a stable sort of the struck channels, on the same records.

use crate::clock::{best, mean, spread};
use crate::records::{self, RECORDS};
use crate::tunes::{Kind, SEEDS};
use lomqashe::{CHANNELS, RECORD_BYTES, Record};
use oracle::generate;
use oracle::random::Random;
use oracle::strikes::{frequency_at, lower};
use oracle::tune::le32;
use std::hint::black_box;

/// Kinds of tunes, and records that all channels strike with any bits as their frequencies.
const NAMES: [&str; 5] = ["dense", "half", "sparse", "empty", ANY];
const ANY: &str = "any";

/// The records of a name for each seed.
pub fn named(name: &str) -> Option<[Vec<Record>; SEEDS.len()]> {
    if name == ANY {
        return Some(SEEDS.map(any));
    }
    Kind::named(name).map(records::of_kind)
}

fn any(seed: u64) -> Vec<Record> {
    let random = &mut Random::new(seed);
    let record = |_| {
        let mut bytes = [0; RECORD_BYTES];
        let frequencies: [u32; CHANNELS] = [(); CHANNELS].map(|_| random.number() as u32);
        generate::records::put(&mut bytes, u32::MAX, frequencies);
        Record::from_bytes(&bytes)
    };
    (0..RECORDS).map(record).collect()
}

/// The lists of all records by the library.
pub fn library(records: &[Record]) {
    for record in records {
        black_box(black_box(record).strikes());
    }
}

/// The same by a sort.
pub fn sorts(records: &[Record]) {
    for record in records {
        black_box(sorted(black_box(record)));
    }
}

/// The struck channels, 0 behind them, and their number.
#[inline(never)]
fn sorted(record: &Record) -> ([u8; CHANNELS], usize) {
    let (mut out, mut count, mut mask) = ([0; CHANNELS], 0, record.strike_mask());
    while mask != 0 {
        out[count] = mask.trailing_zeros() as u8;
        mask &= mask - 1;
        count += 1;
    }
    let frequency = |channel: u8| f32::from_bits(le32(record.as_bytes(), frequency_at(channel.into())));
    out[..count].sort_by(|&a, &b| lower(frequency(a), frequency(b)));
    (out, count)
}

fn same(records: &[Record]) -> bool {
    let list = |record: &Record| {
        let (out, count) = sorted(record);
        out[..count] == *record.strikes().as_slice()
    };
    records.iter().all(list)
}

/// False where the lists differ.
pub fn table() -> bool {
    println!("strikes: ns a record");
    println!("rows   | strikes | library |  sort | library to sort");
    for name in NAMES {
        let seeds = named(name).expect("each is named");
        if !seeds.iter().all(|records| same(records)) {
            println!("{name}: the lists differ");
            return false;
        }
        let lines = seeds.each_ref().map(|records| times(records));
        println!(
            "{name:6} | {:7.1} | {:7.1} | {:5.1} | {}",
            mean(&lines, 0),
            mean(&lines, 1),
            mean(&lines, 2),
            spread(lines.map(|[_, library, sort]| library / sort)),
        );
    }
    true
}

/// Of a record: its strikes, and ns of the library and of the sort.
fn times(records: &[Record]) -> [f64; 3] {
    let strikes: u32 = records.iter().map(|record| record.strike_mask().count_ones()).sum();
    let [library, sort] = best(&mut [&mut || library(records), &mut || sorts(records)]);
    [strikes.into(), library, sort].map(|all| all / records.len() as f64)
}
