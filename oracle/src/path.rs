//! 01's path machine with 02's card, written from the documents alone and held against the original.

use crate::generate::{self, Purpose};
use crate::player::bridge::{open, walk};
use crate::random::Random;
use crate::state::{HEAD_BYTES, S_SLOT, State};
use crate::tune::Tune;

/// What a row asks for; in each the last channel wins.
#[derive(Default)]
struct Asked {
    speed: Option<u8>,
    tempo: Option<u8>,
    order: Option<u8>,
    row: Option<u8>,
    loops: Option<u8>,
    hold: Option<u8>,
}

/// An order, the next where none is named, and a row.
type Jump = (Option<u8>, u8);

/// Enters a row: the jump that waits for leaving it.
fn enter(path: &mut State, tune: &Tune) -> Option<Jump> {
    while tune.orders.get(usize::from(path.order_index)) == Some(&0xFE) {
        path.order_index += 1;
    }
    let Some(pattern) = tune.pattern_at(path.order_index.into()) else {
        path.ended = true;
        return None;
    };
    if path.loop_pattern_order != Some(path.order_index) {
        path.loop_pattern_order = Some(path.order_index);
        (path.loop_start_row, path.loop_count) = (0, None);
    }
    if path.replaying_for_pattern_delay {
        return None;
    }
    let asked = ask(path, tune, pattern);
    follow(path, &asked)
}

fn ask(path: &mut State, tune: &Tune, pattern: usize) -> Asked {
    let mut asked = Asked::default();
    for (channel, cell) in tune.row(pattern, path.row.into()).enumerate() {
        let (command, info) = (cell[3], cell[4]);
        let row = (info >> 4) * 10 + (info & 15);
        let last = &mut path.channels[channel].effect_memory[S_SLOT];
        if command == 19 && info != 0 {
            *last = info;
        }
        match command {
            1 if info != 0 => asked.speed = Some(info),
            20 if info >= 32 => asked.tempo = Some(info),
            2 => asked.order = Some(info),
            3 if row < 64 => asked.row = Some(row),
            19 if *last >> 4 == 0xB => asked.loops = Some(*last & 15),
            19 if *last >> 4 == 0xE => asked.hold = Some(*last & 15),
            _ => {}
        }
    }
    asked
}

fn follow(path: &mut State, asked: &Asked) -> Option<Jump> {
    let jumps = asked.order.is_some() || asked.row.is_some();
    let mut jump = jumps.then(|| (asked.order, asked.row.unwrap_or(0)));
    match asked.loops {
        None => {}
        Some(0) => path.loop_start_row = path.row,
        Some(p) => {
            let m = path.loop_count.map_or(p, |count| count.saturating_sub(1));
            path.loop_count = (m > 0).then_some(m);
            if m > 0 {
                jump = Some((Some(path.order_index), path.loop_start_row));
            }
        }
    }
    path.speed = asked.speed.unwrap_or(path.speed);
    let tempo = asked.tempo.unwrap_or(path.bpm);
    path.card.remainder = (u32::from(path.card.remainder) * u32::from(tempo) / u32::from(path.bpm)) as u16;
    path.bpm = tempo;
    path.pattern_delay_remaining = asked.hold.unwrap_or(path.pattern_delay_remaining);
    jump
}

fn leave(path: &mut State, tune: &Tune, jump: Option<Jump>) {
    go_on(path);
    path.replaying_for_pattern_delay = path.pattern_delay_remaining > 0 && jump.is_none();
    if path.replaying_for_pattern_delay {
        path.pattern_delay_remaining -= 1;
        return;
    }
    path.pattern_delay_remaining = 0;
    let next = path.order_index.saturating_add(1);
    (path.order_index, path.row) = match jump {
        Some((order, row)) => (order.unwrap_or(next), row),
        None if path.row == 63 => (next, 0),
        None => (path.order_index, path.row + 1),
    };
    path.ended = usize::from(path.order_index) >= tune.orders.len();
}

/// All of the card up to here in units of 1/(2 * tempo), of which none is lost.
fn go_on(path: &mut State) {
    let (card, unit) = (&mut path.card, 2 * u128::from(path.bpm));
    let row = u128::from(path.speed) * 5 * u128::from(card.rate);
    let units = u128::from(card.start) * unit + u128::from(card.remainder) + row;
    (card.start, card.remainder) = ((units / unit) as u64, (units % unit) as u16);
}

/// The path's part of a state: its head without the global volume and the switches.
fn path_of(state: &State) -> Vec<u8> {
    let mut head = state.encode();
    head.truncate(HEAD_BYTES);
    head[12..15].fill(0);
    head
}

fn hold_against_the_original(tune: &Tune, from: State, rows: usize, seed: u64) {
    let mut path = from.clone();
    let last = walk(tune, from, rows, |before, entered, _| {
        assert_eq!(path_of(&path), path_of(before), "seed {seed}");
        let jump = enter(&mut path, tune);
        assert_eq!(path_of(&path), path_of(entered), "seed {seed}, from {before:?}");
        leave(&mut path, tune, jump);
    });
    if last.ended && !path.ended {
        enter(&mut path, tune);
    }
    assert_eq!(path_of(&path), path_of(&last), "seed {seed}");
}

#[test]
fn the_originals_path_is_01s_with_02s_card() {
    for seed in 0..400 {
        let random = &mut Random::new(seed);
        let tune = generate::tune(random, Purpose::Visits, seed);
        for _ in 0..25 {
            hold_against_the_original(&tune, generate::odd_state(random, &tune), 1, seed);
        }
        let tune = generate::tune(&mut Random::new(seed), Purpose::Walks, seed);
        hold_against_the_original(&tune, open(&tune), 300, seed);
    }
}
