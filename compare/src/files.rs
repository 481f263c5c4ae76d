//! Good and damaged files: Measure and Read beside the reader that was written from 01, and the sheets of rust/ beside
//! the original's.

use crate::both::Both;
use lomqashe::{Tune, measure};
use oracle::calls::Call;
use oracle::generate::{self, Purpose};
use oracle::random::Random;
use oracle::{plan, reader, sheet, strikes, writer};

/// Every so many files are read through rust/ and walked.
const WALKED: usize = 10;

pub fn compare(random: &mut Random, damaged: u64) -> Result<String, String> {
    let both = &mut Both::default();
    let recorded = plan::files();
    let mut lines = 0;
    for n in 0..recorded.len() + damaged as usize {
        let file = recorded.get(n).cloned().unwrap_or_else(|| {
            let mut file = if random.chance(50) {
                recorded[random.index(recorded.len())].clone()
            } else {
                writer::write(&generate::tune(random, Purpose::Visits, n as u64))
            };
            damage(random, &mut file);
            file
        });
        same(both, random, &file).map_err(|why| format!("file {n}: {why}"))?;
        if n.is_multiple_of(WALKED) {
            lines += walked(&file).map_err(|why| format!("file {n}: {why}"))?;
        }
    }
    Ok(format!("{}, {lines} lines of rust/'s sheets", both.refusals()))
}

/// A few bytes changed, most of them in the header and the lists, and now and then the end cut off.
fn damage(random: &mut Random, file: &mut Vec<u8>) {
    for _ in 0..random.below(4) {
        if let Some(last) = file.len().checked_sub(1) {
            let head = random.chance(60);
            let at = random.index(if head { last.min(400) + 1 } else { last + 1 });
            file[at] = random.byte();
        }
    }
    if random.chance(30) {
        file.truncate(random.index(file.len() + 1));
    }
}

/// Tables as the counts need them, now and then others.
fn same(both: &mut Both, random: &mut Random, file: &[u8]) -> Result<(), String> {
    both.same(&Call::measure(file))?;
    let needs = reader::measure(file).map(|counts| counts.needs());
    let mut lent = needs.unwrap_or([3, 20, 10_240]);
    if random.chance(5) {
        let table = random.index(3);
        lent[table] += random.one(&[1, 20, 10_240]);
    }
    both.same(&Call::read(file, random.number() as u32, &lent)).map(|_| ())
}

/// How many lines rust/ prints of the file's first rows, which are the original's.
fn walked(file: &[u8]) -> Result<usize, String> {
    const RATE: u32 = 60_000;
    let theirs = sheet::sheet(file);
    let tune = match (measure(file), Tune::read(file, RATE)) {
        (Ok(counts), Ok(tune)) if counts.patterns <= 6 => tune,
        (_, Err(refusal)) if theirs.ends_with(&format!("refused,{}\n", refusal.number())) => return Ok(0),
        _ if theirs.ends_with("refused,0\n") => return Ok(0),
        _ => return Err("rust/ reads otherwise".to_string()),
    };
    let rows = tune.rows(50).map_err(|refusal| refusal.to_string())?;
    let mut ours = Vec::new();
    for record in rows.take(500) {
        if record.strikes().as_slice() != strikes::struck(record.as_bytes()) {
            return Err("rust/ lists other strikes".to_string());
        }
        ours.push(record.line());
    }
    let lines = theirs.lines().skip(1).take(ours.len());
    if !ours.iter().map(|line| line.trim_end()).eq(lines) {
        return Err("rust/ walks otherwise".to_string());
    }
    Ok(ours.len())
}
