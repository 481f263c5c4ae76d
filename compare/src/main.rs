//! Puts the same calls to the library and to the judge (the original Rust through oracle/'s patched build, 01's reader, 02's
//! words and the rules) and compares every answer and every byte that was lent. The first difference stops the run.

mod both;
mod cells;
mod closed;
mod columns;
mod files;
mod head;
mod levels;
mod library;
mod pitch;
mod recorded;
mod refusals;
mod sections;
mod strikes;

use oracle::random::Random;
use std::process::ExitCode;

const USAGE: &str = "usage: compare/run [SEED [ROWS]]";
const ROWS: u64 = 2_000_000;

fn main() -> ExitCode {
    let words: Vec<String> = std::env::args().skip(1).collect();
    let numbers: Result<Vec<u64>, _> = words.iter().map(|word| word.parse()).collect();
    let (seed, rows) = match numbers.as_deref() {
        Ok([]) => (1, ROWS),
        Ok(&[seed]) => (seed, ROWS),
        Ok(&[seed, rows]) => (seed, rows),
        _ => {
            eprintln!("{USAGE}");
            return ExitCode::from(2);
        }
    };
    match compare(seed, rows) {
        Ok(()) => ExitCode::SUCCESS,
        Err(why) => {
            eprintln!("compare: {why}");
            ExitCode::FAILURE
        }
    }
}

fn compare(seed: u64, rows: u64) -> Result<(), String> {
    println!("seed {seed}");
    println!("recorded: {}, 0 differences", recorded::compare()?);
    println!("sections: {}, 0 differences", sections::compare(seed, rows)?);
    println!("cells: {}, 0 differences", cells::compare(seed, rows)?);
    println!(
        "pitch: {}, 0 differences",
        pitch::compare(&mut Random::new(seed ^ 0x717C), rows)?
    );
    println!(
        "strikes: {}, 0 differences",
        strikes::compare(&mut Random::new(seed ^ 0x57B1), rows / 4)?
    );
    println!(
        "closed: {}, 0 differences",
        closed::compare(&mut Random::new(seed ^ 0xC105), rows / 100)?
    );
    println!(
        "head: {}, 0 differences",
        head::compare(&mut Random::new(seed ^ 0x4EAD), rows / 100)?
    );
    println!(
        "columns: {}, 0 differences",
        columns::compare(&mut Random::new(seed ^ 0xC015), rows / 1_000)?
    );
    println!(
        "levels: {}, 0 differences",
        levels::compare(&mut Random::new(seed ^ 0x1E7E), rows)?
    );
    println!(
        "refusals: {}, 0 differences",
        refusals::compare(&mut Random::new(seed ^ 0x5EF5), rows / 100)?
    );
    println!(
        "files: {}, 0 differences",
        files::compare(&mut Random::new(seed ^ 0xF11E), rows / 200)?
    );
    Ok(())
}
