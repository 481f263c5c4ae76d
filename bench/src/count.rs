//! One work, once, for a tool that counts instructions: it counts what `counted_work` does. `bench/count` runs it.

use crate::rows::{SECTION, ours, walk};
use crate::tunes::{Kind, SEEDS};
use crate::{closed, columns, head, path, reading, records, strikes};
use lomqashe::RECORD_BYTES;
use oracle::player::bridge::{Original, open};
use oracle::writer;
use std::hint::black_box;

/// Named as it is, so that the tool finds it.
#[unsafe(no_mangle)]
#[inline(never)]
fn counted_work(work: &mut dyn FnMut()) {
    work();
}

/// Does a kind's work of a name and prints what to divide the count by: rows, or files. False: there is no such work.
pub fn run(kind: &Kind, work: &str) -> bool {
    let [theirs, ..] = kind.tunes();
    let tune = ours(&theirs);
    let file = writer::write(&theirs);
    let mut output = vec![0; SECTION as usize * RECORD_BYTES];
    let rows = walk(&tune, SECTION, &mut output);
    let mut recorded = vec![0; rows * RECORD_BYTES];
    let mut original = Original::new(&theirs);
    let opened = open(&theirs).encode();
    let per = match work {
        "path" | "library" | "original" => rows,
        "read" | "parse" => 1,
        _ => return false,
    };
    counted_work(&mut || match work {
        "path" => {
            black_box(path::rows(&theirs));
        }
        "library" => {
            black_box(walk(&tune, SECTION, &mut output));
        }
        "original" => {
            black_box(original.rows_recorded(&opened, rows, &mut recorded));
        }
        "read" => reading::ours(&file),
        _ => reading::theirs(&file),
    });
    println!("{per}");
    true
}

/// Lists the strikes of the records of a name, by the library or by a sort, and prints how many records there are. False:
/// there are no such records.
pub fn strikes(name: &str, library: bool) -> bool {
    let Some([records, ..]) = strikes::named(name) else {
        return false;
    };
    let lists = if library { strikes::library } else { strikes::sorts };
    counted_work(&mut || lists(&records));
    println!("{}", records.len());
    true
}

/// Asks the library or a plain loop whether the tune of a name is closed, and prints how many patterns it has. False: there
/// is no such tune.
pub fn closed(name: &str, library: bool) -> bool {
    let Some([tune, ..]) = closed::named(name) else {
        return false;
    };
    let asked = if library { closed::library } else { closed::plain };
    counted_work(&mut || {
        black_box(asked(black_box(&tune)));
    });
    println!("{}", closed::PATTERNS);
    true
}

/// Loads and strikes the records of a kind, by the library or by plain Rust, and prints how many there are. False: there is
/// no such kind.
pub fn head(name: &str, library: bool) -> bool {
    let Some(kind) = Kind::named(name) else {
        return false;
    };
    let [records, ..] = records::of_kind(kind);
    let strikes = if library { head::library } else { head::plain };
    counted_work(&mut || strikes(&records));
    println!("{}", records.len());
    true
}

/// Stores records, or restores them, in the named way, and prints how many there are. False: there is no such way.
pub fn columns(store: bool, name: &str) -> bool {
    let Some(way) = ["library", "by-columns", "by-records"]
        .iter()
        .position(|way| *way == name)
    else {
        return false;
    };
    let m = 5_000;
    let [records, stored] = columns::both(SEEDS[0], m);
    let (call, input) = if store {
        (columns::STORES[way], records)
    } else {
        (columns::RESTORES[way], stored)
    };
    let mut output = input.clone();
    counted_work(&mut || {
        black_box(call(&input, m as u32, &mut output));
    });
    println!("{m}");
    true
}
