//! Transposed channels: chosen notes in every place where a pitch is worked out, each transposition, the edges of the span
//! and what is outside it, alone and behind or before other rules; opening values of other lengths.

use super::{Group, ask};
use crate::calls::{Call, Function};
use crate::closed::S;
use crate::generate::pitch;
use crate::generate::transposed::{BLOCK, SAMPLES, transpose, tune};
use crate::list::Case;
use crate::player::bridge::open;
use crate::reader::Lent;
use crate::state::{CHANNEL_BYTES, HEAD_BYTES, TRANSPOSITION};
use crate::tune::{CHANNELS, PATTERN_BYTES, SAMPLE_BYTES, TRANSPOSITIONS, Tune, WORKED};

/// Transpositions of a row, each in four channels, of which the last is AdLib.
pub const CHOSEN: [i8; 8] = [-24, -12, -5, -1, 1, 5, 12, 24];
/// Notes of the PCM channels: both ends of the table and of a byte, and semitones 12 to 15.
pub const NOTES: [u8; 12] = [0x00, 0x05, 0x0F, 0x1B, 0x4C, 0x4D, 0x4E, 0x4F, 0x8B, 0x8C, 0x8F, 0xFD];
/// Notes of the AdLib channels.
pub const ADLIB_NOTES: [u8; 4] = [0x00, 0x4C, 0x8F, 0xFD];
/// No two alike, and none that a finetune has.
const C5_SPEEDS: [u32; 2 * SAMPLES] = [8000, 11_025, 16_000, 22_050, 32_000, 44_100];
/// Outside the span, and at its ends.
pub const REFUSED: [i8; 4] = [-128, -25, 25, 127];
pub const TAKEN: [i8; 2] = [-24, 24];
/// The first channel and the last.
pub const ENDS: [usize; 2] = [0, CHANNELS - 1];
/// Lengths of opening values: without transpositions, and one off.
pub const LENGTHS: [usize; 3] = [144, 175, 177];
const FUNCTIONS: [Function; 3] = [Function::Open, Function::OpenClosed, Function::Section];

pub fn groups() -> Vec<Group> {
    let alone = alone()
        .chain(orders())
        .chain(lengths())
        .map(|call| vec![Case::of(call)]);
    [places(), each(-24), each(-7)].into_iter().chain(alone).collect()
}

/// The chosen notes by the chosen transpositions, from Open on.
fn places() -> Group {
    let quarter = CHANNELS / CHOSEN.len();
    let block = |n: usize| {
        let note = |k: usize| match k % quarter {
            3 => ADLIB_NOTES[n],
            nth => NOTES[3 * n + nth],
        };
        std::array::from_fn(note)
    };
    let notes: Vec<[u8; CHANNELS]> = (0..ADLIB_NOTES.len()).map(block).collect();
    let mut tune = tune(&notes, C5_SPEEDS, std::array::from_fn(|k| k % quarter == 3));
    transpose(&mut tune, |k| CHOSEN[k / quarter]);
    played(&tune, notes.len() * BLOCK)
}

/// One note by 32 transpositions from this one on.
fn each(first: i8) -> Group {
    let mut tune = small();
    transpose(&mut tune, |k| first + k as i8);
    played(&tune, 1)
}

fn played(tune: &Tune, rows: usize) -> Group {
    let mut asked = Vec::new();
    let state = ask(&mut asked, Call::open(tune));
    ask(&mut asked, Call::section(tune, state, rows as u32, 0));
    asked
}

/// A closed tune with a note in each channel.
fn small() -> Tune {
    pitch::tune(&[pitch::note(0x40, 8363); CHANNELS])
}

/// A call with this transposition in one channel.
fn with(function: Function, tune: &Tune, channel: usize, transposition: i8) -> Call {
    let mut call = match function {
        Function::Open => Call::open(tune),
        Function::OpenClosed => Call::open_closed(tune),
        _ => Call::section(tune, open(tune).encode(), 1, 0),
    };
    let at = match function {
        Function::Section => HEAD_BYTES + CHANNEL_BYTES * channel + TRANSPOSITION,
        _ => TRANSPOSITIONS + channel,
    };
    call.slots[3][at] = transposition as u8;
    call
}

/// A transposition in the first channel or the last, outside the span or at its ends, and nothing else.
fn alone() -> impl Iterator<Item = Call> {
    let all = REFUSED.into_iter().chain(TAKEN);
    let places = all.flat_map(|transposition| ENDS.map(|channel| (channel, transposition)));
    let calls = |(channel, transposition)| FUNCTIONS.map(|function| with(function, &small(), channel, transposition));
    places.flat_map(calls)
}

/// A transposition outside the span, with what is asked before it and behind it.
fn orders() -> impl Iterator<Item = Call> {
    let (mut empty, mut recalls) = (small(), small());
    empty.orders.clear();
    recalls.cells[3..5].copy_from_slice(&[S, 0]);
    let before = FUNCTIONS.map(|function| with(function, &empty, 3, 25));
    let short_state = [Function::Open, Function::OpenClosed].map(|function| {
        let mut call = with(function, &small(), 3, -25);
        call.slots[4].pop();
        call
    });
    let no_room = [small(), empty].map(|tune| {
        let mut call = with(Function::Section, &tune, 3, -25);
        call.slots[4].pop();
        call
    });
    let behind = [with(Function::OpenClosed, &recalls, 3, 25)];
    before.into_iter().chain(short_state).chain(no_room).chain(behind)
}

/// Opening values of other lengths, whose bytes are good as far as they go.
fn lengths() -> impl Iterator<Item = Call> {
    const LENT: Lent = [1, SAMPLE_BYTES, PATTERN_BYTES];
    LENGTHS.into_iter().flat_map(|length| {
        let mut calls = [
            Call::open(&small()),
            Call::open_closed(&small()),
            Call::read(WORKED, 60_000, &LENT),
        ];
        for (call, slot) in calls.iter_mut().zip([3, 3, 4]) {
            call.slots[slot].resize(length, 0);
        }
        calls
    })
}
