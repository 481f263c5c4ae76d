//! Levels about their limits: each alone in a channel with all others at their limits, alone and behind or before other
//! rules; volumes that no rule asks for; and rows that meet levels at their limits.

use super::{Group, ask};
use crate::calls::Call;
use crate::generate::levels::{LOUD, put_at_limits, tune};
use crate::list::Case;
use crate::player::bridge::open;
use crate::player::cmd::*;
use crate::state::*;
use crate::tune::{CELL, CHANNELS, Tune};

/// The first channel, the last and one between.
pub const CHOSEN: [usize; 3] = [0, 13, 31];
/// Of the AdLib mark, which is a flag.
pub const MARKS: [u8; 2] = [1, 0x80];
/// Outside the limits, and at them or just below.
pub const PCM_REFUSED: [u8; 5] = [64, 65, 128, 200, 255];
pub const PCM_TAKEN: [u8; 1] = [63];
pub const ADLIB_REFUSED: [u8; 4] = [65, 128, 200, 255];
pub const ADLIB_TAKEN: [u8; 2] = [63, 64];
pub const PANS_REFUSED: [u8; 5] = [16, 32, 128, 200, 255];
pub const PANS_TAKEN: [u8; 1] = [15];
/// Put into volumes that no rule asks for.
const OTHER: u8 = 200;

/// Cells of two channels each, of which the second is AdLib.
#[rustfmt::skip]
const CHANGES: [[u8; CELL]; CHANNELS / 2] = [
    [255, 0, 255, 0, 0],
    [255, 0, 255, D_VOL_SLIDE, 0xF0],
    [255, 0, 255, D_VOL_SLIDE, 0xFF],
    [255, 0, 255, D_VOL_SLIDE, 0x2F],
    [255, 0, 255, D_VOL_SLIDE, 0x20],
    [255, 0, 255, D_VOL_SLIDE, 0x0F],
    [255, 0, 255, D_VOL_SLIDE, 0xF1],
    [255, 0, 255, D_VOL_SLIDE, 0x01],
    [255, 0, 255, D_VOL_SLIDE, 0x21],
    [255, 0, 255, D_VOL_SLIDE, 0x00],
    [255, 0, 64, 0, 0],
    [255, 0, 254, 0, 0],
    [255, LOUD[0], 255, 0, 0],
    [255, LOUD[2], 255, 0, 0],
    [255, 0, 255, X_SET_PAN, 0x81],
    [255, 0, 255, S_EXTENDED, 0xA0],
];
/// The rows of the tune: one that raises levels, one that changes them, and an empty one.
const RAISED: u8 = 0;
const CHANGED: u8 = 1;
const EMPTY: u8 = 2;

/// Places of a state, and the bytes that are put there.
type Edits = Vec<(usize, u8)>;

pub fn groups() -> Vec<Group> {
    let tune = played();
    let edited = alone().into_iter().chain(places()).map(|edits| with(&tune, &edits));
    let calls = edited.chain(orders(&tune)).chain(nothing(&tune)).chain(rows(&tune));
    let alone = calls.map(|call| vec![Case::of(call)]);
    [walk(&tune)].into_iter().chain(alone).collect()
}

/// A tune whose first row brings all levels to their limits, and whose second changes them.
fn played() -> Tune {
    let pan = |k: usize| [(X_SET_PAN, 0x80), (X_SET_PAN, 0xFF), (S_EXTENDED, 0x8F)][k / 2 % 3];
    let raised = |k: usize| [0x40, LOUD[k / 2 % 3], 255, pan(k).0, pan(k).1];
    let changed = |k: usize| CHANGES[k / 2];
    let mut tune = tune(&[std::array::from_fn(raised), std::array::from_fn(changed)]);
    tune.opening.fast_slides = true;
    tune
}

/// The first two rows from Open on.
fn walk(tune: &Tune) -> Group {
    let mut asked = Vec::new();
    let state = ask(&mut asked, Call::open(tune));
    ask(&mut asked, Call::section(tune, state, 2, 0));
    asked
}

/// Where a channel has a byte.
fn at(channel: usize, byte: usize) -> usize {
    HEAD_BYTES + CHANNEL_BYTES * channel + byte
}

/// A section of a row from a state whose levels are at their limits, but for what is put there.
fn with(tune: &Tune, edits: &[(usize, u8)]) -> Call {
    let mut state = open(tune);
    state.row = EMPTY;
    state.channels[CHOSEN[1]].muted = true;
    state.channels[CHOSEN[2]].active = true;
    let mut bytes = state.encode();
    put_at_limits(&mut bytes);
    for &(at, byte) in edits {
        bytes[at] = byte;
    }
    Call::section(tune, bytes, 1, 0)
}

/// One level of one channel.
fn alone() -> Vec<Edits> {
    let mut all = Vec::new();
    for channel in CHOSEN {
        let put = |byte, to| (at(channel, byte), to);
        for volume in PCM_TAKEN.into_iter().chain(PCM_REFUSED) {
            all.push(vec![put(ADLIB, 0), put(VOLUME, volume)]);
        }
        for volume in ADLIB_TAKEN.into_iter().chain(ADLIB_REFUSED) {
            all.extend(MARKS.map(|mark| vec![put(ADLIB, mark), put(VOLUME, volume)]));
        }
        all.extend(
            PANS_TAKEN
                .into_iter()
                .chain(PANS_REFUSED)
                .map(|pan| vec![put(PAN, pan)]),
        );
    }
    all
}

/// Channels of which each has one kind of level above its limit: PCM, AdLib and pan.
const ABOVE: [(usize, usize, u8); 3] = [(0, VOLUME, 64), (13, VOLUME, 65), (31, PAN, 16)];

fn above() -> [(usize, u8); 3] {
    ABOVE.map(|(channel, byte, to)| (at(channel, byte), to))
}

/// Levels that are refused beside a voice, in a frozen channel, in ended and held states and several at once; and volumes
/// that no rule asks for, which are taken.
fn places() -> Vec<Edits> {
    let [pcm, adlib, pan] = above();
    let voices = [KEYED, RELEASED].map(|mark| vec![pcm, (at(0, 43), mark)]);
    let frozen = vec![pcm, (at(0, 40), 1)];
    let ended = [pcm, adlib, pan].map(|one| vec![one, (9, 1)]);
    let held = vec![adlib, (8, 1)];
    let several = [vec![pcm, adlib], vec![pcm, pan], vec![pcm, adlib, pan]];
    let each = |byte| (0..CHANNELS).map(move |channel| (at(channel, byte), OTHER));
    let (stored, voice) = (each(STORED_VOLUME), each(VOICE_GLOBAL_VOLUME));
    let global = vec![(GLOBAL_VOLUME, OTHER)];
    let taken = [stored.collect(), voice.collect(), global];
    let all: [&[Edits]; 5] = [&voices, &[frozen, held, taken.concat()], &ended, &several, &taken];
    all.concat()
}

/// Each kind of level above its limit, and none, with rules 9, 11 and 12 broken or not. What breaks 11 stands behind the
/// level where it can.
fn orders(tune: &Tune) -> Vec<Call> {
    let last = CHANNELS - 1;
    let not_a_number = vec![(at(last, 2), 0xC0), (at(last, 3), 0x7F)];
    let [pcm, adlib, pan] = above();
    let kinds = [
        (vec![pcm], not_a_number),
        (vec![adlib], vec![(at(last, TRANSPOSITION), 25)]),
        (vec![pan], vec![(10, 0)]),
        (Vec::new(), vec![(10, 0)]),
    ];
    let masks = |kind| (0..8).map(move |mask| (kind, mask));
    let ask = |(level, state): &(Edits, Edits), mask: u8| {
        let edits = [&level[..], if mask & 1 == 0 { &[] } else { state }].concat();
        let mut call = with(tune, &edits);
        call.slots[4].truncate(call.slots[4].len() - usize::from(mask >> 1 & 1));
        call.slots[0].truncate(1 - usize::from(mask >> 2));
        call
    };
    kinds
        .iter()
        .flat_map(masks)
        .map(|(kind, mask)| ask(kind, mask))
        .collect()
}

/// No rows from a state with a level above its limit, and from an ended one.
fn nothing(tune: &Tune) -> Vec<Call> {
    let calls = above().map(|level| {
        let edits = [vec![level], vec![level, (9, 1)]];
        edits.map(|edits| Call {
            number: 0,
            ..with(tune, &edits)
        })
    });
    calls.into_iter().flatten().collect()
}

/// The changes on levels at their limits and on 62 and 63, with fast slides and without; and the raising row.
fn rows(tune: &Tune) -> Vec<Call> {
    let volume = |channel| (at(channel, VOLUME), 62 + (channel % 2) as u8);
    let below: Edits = (0..CHANNELS).map(volume).collect();
    let changed = [vec![(1, CHANGED), (14, 1)], vec![(1, CHANGED), (14, 0)]];
    let changed = changed
        .into_iter()
        .flat_map(|row| [row.clone(), [row, below.clone()].concat()]);
    let all = changed.chain([vec![(1, RAISED)]]);
    all.map(|edits| with(tune, &edits)).collect()
}
