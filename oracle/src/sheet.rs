//! The row sheet of a file, in the form that 01 gives for the program `rowsheet`, and the built program held against the
//! sheets of every recorded file, good or damaged, and of fresh tunes written as files.

use crate::generate;
use crate::player::bridge::{open, walk};
use crate::random::Random;
use crate::tune::{Tune, le32, le64};
use crate::{plan, reader, writer};
use std::collections::BTreeMap;
use std::io::Write;
use std::path::Path;
use std::process::{Command, Stdio};
use std::thread;

pub const RATE: u32 = 60_000;
const MOST_BYTES: usize = 65_536;
const MOST_PATTERNS: usize = 6;
const MOST_ROWS: usize = 10_000;
const TUNES: u64 = 200;
const TITLE: &str = "order,pattern,row,held,speed,tempo,start,length,strikes\n";

pub fn sheet(file: &[u8]) -> String {
    match admit(file) {
        Ok(tune) => print(&tune),
        Err(number) => format!("{TITLE}refused,{number}\n"),
    }
}

/// The tune, or the refusal: 0 for the sheet's own limits, which stand before and right after Measure.
fn admit(file: &[u8]) -> Result<Tune, u8> {
    if file.len() > MOST_BYTES || reader::measure(file)?.patterns > MOST_PATTERNS {
        return Err(0);
    }
    reader::read(file, RATE)
}

fn print(tune: &Tune) -> String {
    let mut out = TITLE.to_string();
    let mut count = 0;
    let last = walk(tune, open(tune), MOST_ROWS, |_, _, record| {
        out += &line(record);
        count += 1;
    });
    let word = if last.ended { "end" } else { "more" };
    out + &format!("{word},{count},{}\n", last.card.start)
}

/// A record's line.
pub fn line(record: &[u8]) -> String {
    let [order, pattern, row, held, speed, tempo] = [0, 1, 2, 3, 4, 5].map(|at| record[at].into());
    let (start, length) = (le64(record, 8), le32(record, 20).into());
    let strikes = le32(record, 16).count_ones().into();
    let numbers: [u64; 9] = [order, pattern, row, held, speed, tempo, start, length, strikes];
    numbers.map(|number| number.to_string()).join(",") + "\n"
}

/// `words`: the program, then a seed and how many tunes, if said.
pub fn hold(words: &[&str]) -> Result<String, String> {
    let numbers: Result<Vec<u64>, _> = words.iter().skip(1).map(|word| word.parse()).collect();
    let (program, seed, tunes) = match (words.first(), numbers.as_deref()) {
        (Some(program), Ok([])) => (program, 1, TUNES),
        (Some(program), Ok(&[seed, tunes])) => (program, seed, tunes),
        _ => return Err("usage: oracle/run sheets PROGRAM [SEED TUNES]".to_string()),
    };
    let (mut files, mut rows, mut endings) = (0, 0, BTreeMap::<String, usize>::new());
    let fresh = (seed..seed + tunes).map(fresh);
    for (i, file) in plan::files().into_iter().chain(fresh).enumerate() {
        let (ours, original) = (printed(Path::new(program), file.clone())?, sheet(&file));
        if ours != original {
            return Err(format!("file {i}: {program} says\n{ours}not\n{original}"));
        }
        let last = original.lines().next_back().unwrap_or_default();
        let word = last.split(',').next().unwrap_or_default();
        let ending = if word == "refused" { last } else { word };
        *endings.entry(ending.to_string()).or_default() += 1;
        files += 1;
        rows += original.lines().count() - 2;
    }
    let endings = endings.iter().map(|(ending, count)| format!("{count} {ending}"));
    let endings = endings.collect::<Vec<_>>().join("; ");
    Ok(format!("sheets: {files} files and {rows} rows the same ({endings})\n"))
}

/// A tune of a seed as a file.
fn fresh(seed: u64) -> Vec<u8> {
    writer::write(&generate::any_tune(&mut Random::new(seed), seed))
}

/// What the program prints for a file on its standard input.
fn printed(program: &Path, file: Vec<u8>) -> Result<String, String> {
    let mut child = Command::new(program)
        .stdin(Stdio::piped())
        .stdout(Stdio::piped())
        .spawn()
        .map_err(|why| format!("{}: {why}", program.display()))?;
    let mut input = child.stdin.take().expect("it was piped");
    // A program that stops reading closes the pipe: what it prints is the answer.
    let writing = thread::spawn(move || input.write_all(&file));
    let output = child.wait_with_output().map_err(|why| why.to_string())?;
    let _ = writing.join();
    String::from_utf8(output.stdout).map_err(|why| why.to_string())
}
