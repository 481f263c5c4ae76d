//! Reading files: the library beside the original's parser.

use crate::clock::{best, mean, spread};
use crate::tunes::FILES;
use lomqashe::Tune;
use oracle::header::parse_header;
use oracle::pattern::unpack_all;
use oracle::writer;
use std::hint::black_box;

pub fn ours(file: &[u8]) {
    black_box(Tune::read(black_box(file), 60_000).expect("a good file"));
}

pub fn theirs(file: &[u8]) {
    let header = parse_header(black_box(file)).expect("a good file");
    let patterns = unpack_all(&header, file);
    black_box((header, patterns));
}

pub fn table() {
    println!("reading: microseconds each");
    println!("tune   |  bytes | library | original | library to original");
    for kind in FILES {
        let files = kind.tunes().map(|tune| writer::write(&tune));
        let lines = files
            .each_ref()
            .map(|file| best(&mut [&mut || ours(file), &mut || theirs(file)]).map(|ns| ns / 1000.0));
        println!(
            "{:6} | {:6} | {:7.1} | {:8.1} | {}",
            kind.name,
            files[0].len(),
            mean(&lines, 0),
            mean(&lines, 1),
            spread(lines.map(|[library, original]| library / original)),
        );
    }
}
