//! Strikes: the kinds of frequencies that meet in one record, by which of two channels has which, and what it is lent.

use super::Tally;
use crate::list::Case;
use crate::strikes::{MASK, frequency_at, struck};
use crate::tune::{CHANNELS, le32};
use std::cmp::Ordering;
use std::num::FpCategory;

const KINDS: [&str; 6] = ["0", "subnormal", "normal", "infinity", "quiet NaN", "signalling NaN"];
/// Of the kinds, those with more than one value.
const MANY: [&str; 4] = [KINDS[1], KINDS[2], KINDS[4], KINDS[5]];
const SIGNS: [&str; 2] = ["", "-"];

pub fn needs(tally: &mut Tally) {
    let kinds = SIGNS.map(|sign| KINDS.map(|kind| format!("{sign}{kind}"))).concat();
    tally.pairs("strikes of {} and {}", &kinds, &kinds);
    let many = SIGNS.map(|sign| MANY.map(|kind| format!("{sign}{kind}"))).concat();
    tally.pairs("strikes of {} twice, bits {}", many, &["equal", "rising", "falling"]);
    tally.pairs(
        "strikes {} in bit {} alone",
        ["rising", "falling"],
        &Vec::from_iter(0..32),
    );
    tally.family("strikes of {} channels", 0..=CHANNELS);
}

pub fn see(tally: &mut Tally, case: &Case, from_section: bool) -> Result<(), String> {
    let (record, mask) = (&case.call.slots[0], le32(&case.call.slots[0], MASK));
    let frequency = |channel| f32::from_bits(le32(record, frequency_at(channel)));
    let (on, off): (Vec<usize>, Vec<usize>) = (0..CHANNELS).partition(|channel| mask >> channel & 1 == 1);
    let [on, off] = [on, off].map(|channels| channels.into_iter().map(frequency).collect::<Vec<f32>>());
    for (at, &first) in on.iter().enumerate() {
        on[at + 1..].iter().for_each(|&second| see_pair(tally, first, second));
    }
    see_lent(tally, &case.call.slots[1], on.len());
    see_all(tally, if on.len() == CHANNELS { &on } else { &[] });
    see_others(tally, record, &on, &off);
    if from_section {
        see_row(tally, &struck(record), &on);
    }
    let sound = is_sound(record, &case.answer.slots[1][..on.len()]);
    sound.then_some(()).ok_or("the list is not that of 02".to_string())
}

/// Whether a list has the channels of the mask, each two of them as 02 says.
fn is_sound(record: &[u8], list: &[u8]) -> bool {
    let mut channels = list.to_vec();
    channels.sort();
    let mask = le32(record, MASK);
    let struck = (0..CHANNELS as u8).filter(|channel| mask >> channel & 1 == 1);
    let placed = |at| list[..at].iter().all(|&earlier| goes_before(record, earlier, list[at]));
    channels.into_iter().eq(struck) && (0..list.len()).all(placed)
}

/// Whether one struck channel stands before another.
fn goes_before(record: &[u8], one: u8, other: u8) -> bool {
    let [a, b] = [one, other].map(|channel| f32::from_bits(le32(record, frequency_at(channel.into()))));
    match (a.is_nan(), b.is_nan()) {
        (false, true) => true,
        (true, false) => false,
        (true, true) => one < other,
        (false, false) => a < b || a == b && one < other,
    }
}

/// The frequencies of two struck channels, that of the lower one first.
fn see_pair(tally: &mut Tally, first: f32, second: f32) {
    let [one, other] = [first, second].map(f32::to_bits);
    let kinds = [first, second].map(kind);
    tally.note(format!("strikes of {} and {}", kinds[0], kinds[1]));
    if kinds[0] == kinds[1] {
        tally.note(format!("strikes of {} twice, bits {}", kinds[0], way(one.cmp(&other))));
    }
    if let (1, Some(order)) = ((one ^ other).count_ones(), first.partial_cmp(&second)) {
        let bit = (one ^ other).trailing_zeros();
        tally.note(format!("strikes {} in bit {bit} alone", way(order)));
    }
}

fn way(order: Ordering) -> &'static str {
    match order {
        Ordering::Less => "rising",
        Ordering::Equal => "equal",
        Ordering::Greater => "falling",
    }
}

fn kind(frequency: f32) -> String {
    let quiet = frequency.to_bits() >> 22 & 1 == 1;
    let kind = match frequency.classify() {
        FpCategory::Zero => KINDS[0],
        FpCategory::Subnormal => KINDS[1],
        FpCategory::Normal => KINDS[2],
        FpCategory::Infinite => KINDS[3],
        FpCategory::Nan => KINDS[if quiet { 4 } else { 5 }],
    };
    format!("{}{kind}", SIGNS[usize::from(frequency.is_sign_negative())])
}

/// The bytes that so many are put into.
fn see_lent(tally: &mut Tally, output: &[u8], count: usize) {
    tally.note(format!("strikes of {count} channels"));
    tally.note(format!("strikes into {} bytes", output.len()));
    let (all, full) = (count == CHANNELS, output.iter().all(|&byte| byte > 0));
    let behind = full && output.len() > 32;
    tally.anywhere([
        (all && output.len() == 32, "strikes of all into 32 bytes"),
        (all && behind, "strikes of all with bytes behind that stay"),
        (!all && full, "strikes of some over bytes that become 0"),
        (!all && behind, "strikes of some with bytes behind that stay"),
    ]);
}

/// The frequencies where all are struck; else none.
fn see_all(tally: &mut Tally, all: &[f32]) {
    let each = |holds: fn(f32, f32) -> bool| !all.is_empty() && all.windows(2).all(|pair| holds(pair[0], pair[1]));
    let (zeros, turns) = (
        each(|a, b| a == 0.0 && b == 0.0),
        each(|a, b| a.to_bits() != b.to_bits()),
    );
    let minus = all.first().is_some_and(|first| first.is_sign_negative());
    tally.anywhere([
        (each(|a, b| a == b) && !turns, "strikes of all with one frequency"),
        (zeros && turns && !minus, "strikes of all with 0 and -0 in turn"),
        (zeros && turns && minus, "strikes of all with -0 and 0 in turn"),
        (
            each(|a, b| a.is_nan() && b.is_nan()),
            "strikes of all that are not numbers",
        ),
        (each(|a, b| 0.0 < a && a < b), "strikes of all rising"),
        (each(|a, b| a > b && b > 0.0), "strikes of all falling"),
        (each(|a, b| a < b && b < 0.0), "strikes of all rising below 0"),
        (each(|a, b| 0.0 > a && a > b), "strikes of all falling below 0"),
    ]);
}

/// What has no part in the order: channels that are not struck, and targets.
fn see_others(tally: &mut Tally, record: &[u8], on: &[f32], off: &[f32]) {
    let list = struck(record);
    let lower = off.iter().any(|off| on.iter().any(|on| off < on));
    let gaps = le32(record, MASK).count_zeros() > 0 && list.contains(&0) && list.contains(&31);
    let by_targets = struck(&[&record[..24], &record[28..], &[0; 4]].concat());
    tally.anywhere([
        (lower, "strikes beside a lower channel that is not struck"),
        (
            off.iter().any(|off| off.is_nan()),
            "strikes beside no number that is not struck",
        ),
        (gaps && !list.is_sorted(), "strikes with gaps, not by number"),
        (
            list.is_sorted() && !by_targets.is_sorted(),
            "strikes by number, but not by targets",
        ),
        (
            !list.is_sorted() && by_targets.is_sorted(),
            "strikes by targets alone in the order of channels",
        ),
    ]);
}

/// The list of a record that a section gave.
fn see_row(tally: &mut Tally, list: &[u8], on: &[f32]) {
    let moved = !list.is_sorted();
    let again = (1..on.len()).any(|at| on[..at].contains(&on[at]));
    tally.anywhere([
        (list.len() < 2, "strikes of a section's row, one or none"),
        (moved, "strikes of a section's row, not by number"),
        (moved && again, "strikes of a section's row, not by number, some equal"),
        (
            moved && list.len() == 32,
            "strikes of a section's row, not by number, all",
        ),
    ]);
}
