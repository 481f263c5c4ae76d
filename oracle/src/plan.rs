//! Which calls are recorded: each from a seed, and answered by the judge as it is asked. Of most kinds those are kept
//! that show something which no others do.

mod closed;
mod columns;
mod head;
pub mod levels;
mod pitch;
mod strikes;
pub mod transposed;

use crate::calls::{Call, Function};
use crate::cover;
use crate::generate::{self, Purpose, files, refused};
use crate::list::Case;
use crate::random::Random;

pub use pitch::{C5_SPEEDS, PERIODS, frequencies};

/// Cases that go on from each other.
type Group = Vec<Case>;

const FILES: u64 = 12_000;
const FIRST_FILES: usize = 590;
const WALKS: u64 = 300;
const WALK_ROWS: u32 = 130;
const PARTED: u64 = 40;
/// As many rows in sections of so many.
const PARTED_ROWS: u32 = 21;
const PARTS: [u32; 3] = [PARTED_ROWS, 7, 1];
const VISITED: u64 = 30;
const VISITS: usize = 30;
const REFUSED_SEED: u64 = 939;
const REFUSED: usize = 5_000;
/// Every so many rows one is put to Strikes and Line.
const RECORDS: usize = 23;
const SPARE: [usize; 4] = [0, 1, 7, 535];

pub fn recorded() -> Vec<Case> {
    let mut chosen = strikes::groups();
    chosen.extend(closed::groups());
    chosen.extend(transposed::groups());
    chosen.extend(levels::groups());
    let first = chosen.len() + FIRST_FILES;
    let groups = chosen
        .into_iter()
        .chain(file_groups())
        .chain(pitch::groups())
        .chain((0..VISITED).flat_map(visits))
        .chain((0..WALKS).map(walked))
        .chain(refused())
        .chain(refused_closed())
        .chain((0..PARTED).map(parted));
    let mut cases = cover::telling(groups, first);
    let sections = cases.iter().filter(|case| case.call.function == Function::Section);
    let rows = sections.flat_map(|case| case.answer.records()).step_by(RECORDS);
    let rows: Vec<&[u8]> = rows.collect();
    let calls = |row: &&[u8]| [Function::Strikes, Function::Line].map(|function| Call::of_record(function, row, 70));
    let records = rows.iter().flat_map(calls).map(Case::of);
    let more: Vec<Case> = records.chain(head::cases(&rows)).chain(columns::cases(&rows)).collect();
    cases.extend(more);
    cases
}

/// Each file to Measure and to Read.
fn file_groups() -> impl Iterator<Item = Group> {
    let files = (0..FILES).map(files::made);
    files.map(|read| [Call::measure(&read.slots[0]), read].map(Case::of).into())
}

/// The files that are recorded.
pub fn files() -> Vec<Vec<u8>> {
    let cases = cover::telling(file_groups(), FIRST_FILES).into_iter();
    let read = cases.filter(|case| case.call.function == Function::Read);
    read.map(|Case { call, .. }| call.slots[0].clone()).collect()
}

/// Adds a call of Open or Section with the judge's answer; the state behind it.
fn ask(asked: &mut Vec<Case>, call: Call) -> Vec<u8> {
    let case = Case::of(call);
    let [.., of_section, of_open] = case.answer.slots.clone();
    let opened = case.call.function == Function::Open;
    asked.push(case);
    if opened { of_open } else { of_section }
}

/// A tune from Open on, in one section.
fn walked(seed: u64) -> Group {
    let tune = generate::tune(&mut Random::new(seed), Purpose::Walks, seed);
    let mut asked = Vec::new();
    let state = ask(&mut asked, Call::open(&tune));
    let spare = SPARE[seed as usize % SPARE.len()];
    ask(&mut asked, Call::section(&tune, state, WALK_ROWS, spare));
    asked
}

/// The same rows from Open and from an odd state, all at once and in parts; no rows, and rows from an ended state.
fn parted(seed: u64) -> Group {
    let random = &mut Random::new(seed);
    let tune = generate::any_tune(random, seed);
    let (mut asked, mut odd) = (Vec::new(), generate::odd_bytes(random, &tune));
    // Its start is far from the most.
    odd[31] = 0;
    for start in [ask(&mut asked, Call::open(&tune)), odd.clone()] {
        for n in PARTS {
            let mut state = start.clone();
            for _ in 0..PARTED_ROWS / n {
                state = ask(&mut asked, Call::section(&tune, state, n, 0));
            }
        }
    }
    ask(&mut asked, Call::section(&tune, odd.clone(), 0, 0));
    odd[9] = 1;
    ask(&mut asked, Call::section(&tune, odd, 3, 1));
    asked
}

/// Sections of one row to three, each from an odd state, which half of them say in the usual way.
fn visits(seed: u64) -> Vec<Group> {
    let random = &mut Random::new(seed);
    let tune = generate::tune(random, Purpose::Visits, seed);
    let visit = |_| {
        let bytes = generate::odd_bytes(random, &tune);
        let usual = generate::odd_state(random, &tune).encode();
        let state = if random.chance(50) { bytes } else { usual };
        let (n, spare) = (random.weighted(&[(5, 1), (2, 2), (1, 3), (1, 45)]), random.one(&SPARE));
        vec![Case::of(Call::section(&tune, state, n, spare))]
    };
    (0..VISITS).map(visit).collect()
}

/// Calls that break rules 9 to 13, 17 and 255, on one tune.
fn refused() -> impl Iterator<Item = Group> {
    let mut random = Random::new(REFUSED_SEED);
    let tune = generate::tune(&mut random, Purpose::Walks, REFUSED_SEED);
    let calls = (0..REFUSED).map(move |_| refused::call(&mut random, &tune));
    calls.map(|call| vec![Case::of(call)])
}

/// The same of what asks whether a tune is closed: rules 9, 10 and 14 and 255.
fn refused_closed() -> impl Iterator<Item = Group> {
    let mut random = Random::new(REFUSED_SEED);
    let calls = (0..REFUSED).map(move |_| refused::closed_call(&mut random));
    calls.map(|call| vec![Case::of(call)])
}
