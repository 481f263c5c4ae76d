//! Rows, sections and repeats of small tunes: states between rows, cuts, and endless paths.

mod common;

use common::{A, B, C, S, file, note, put};
use lomqashe::{Record, Repeat, State, Tune};
use std::collections::HashMap;

/// A note, a row that is held twice more, and a jump past the last order: five rows.
fn held() -> Tune {
    let pattern = [note(0, 0), note(1, 0), put(1, 1, S, 0xE2), note(2, 0), put(2, 1, B, 9)];
    Tune::read(&file(&[0], &[&pattern]), 60_000).unwrap()
}

/// Goes back to the first order from row 3.
fn endless() -> Tune {
    Tune::read(&file(&[0], &[&[note(0, 0), put(3, 0, B, 0)]]), 60_000).unwrap()
}

/// The states before the first row and behind each, by calls of Section for one row.
fn states(tune: &Tune, rows: usize) -> Vec<State> {
    let mut state = tune.open().unwrap();
    let mut out = vec![state.clone()];
    for _ in 0..rows {
        tune.section(&mut state, 1, &mut [0; 536]).unwrap();
        out.push(state.clone());
    }
    out
}

#[test]
fn the_state_is_behind_the_last_record_given_whatever_the_cut() {
    let tune = held();
    let expected = states(&tune, 5);
    for section in [1, 2, 3, 4, 5, 6, 50] {
        let mut rows = tune.rows(section).unwrap();
        for state in &expected {
            assert_eq!(&rows.state(), state, "cut in {section}");
            rows.next();
        }
        assert!(rows.next().is_none() && rows.next().is_none());
        assert!(rows.state().ended() && rows.refusal().is_none());
    }
}

#[test]
fn the_state_ends_when_the_rows_say_so() {
    // The order behind the only pattern ends the tune, but only when it is entered.
    let tune = Tune::read(&file(&[0, 0xFF], &[&[]]), 60_000).unwrap();
    let mut rows = tune.rows(100).unwrap();
    assert_eq!(rows.by_ref().take(64).count(), 64);
    assert!(!rows.state().ended());
    assert_eq!(rows.state().order(), 1);
    assert!(rows.next().is_none());
    assert!(rows.state().ended());
}

#[test]
fn rows_go_on_from_any_state_of_rows() {
    let tune = held();
    let all: Vec<Record> = tune.rows(50).unwrap().collect();
    assert_eq!(all.len(), 5);
    for given in 0..=5 {
        let mut rows = tune.rows(50).unwrap();
        rows.by_ref().take(given).for_each(drop);
        let rest: Vec<Record> = tune.rows_from(rows.state(), 2).unwrap().collect();
        assert_eq!(rest, all[given..]);
        assert_eq!(rows.clone().collect::<Vec<_>>(), rest);
    }
}

#[test]
fn rows_from_a_state_that_section_refuses_are_refused() {
    let tune = held();
    let mut bytes = *tune.open().unwrap().as_bytes();
    bytes[1] = 64;
    let refusal = tune.rows_from(State::from_bytes(&bytes), 50).unwrap_err();
    assert_eq!(refusal.number(), 11);
    let mut sections = tune.sections_from(State::from_bytes(&bytes), 50);
    assert_eq!(sections.next().unwrap().unwrap_err().number(), 11);
    assert!(sections.next().is_none());
}

#[test]
fn sections_join_to_the_rows() {
    let tune = held();
    let all: Vec<Record> = tune.rows(50).unwrap().collect();
    let states = states(&tune, 5);
    for rows in 1..=6 {
        let sections: Vec<_> = tune.sections(rows).unwrap().map(Result::unwrap).collect();
        let joined: Vec<Record> = sections.iter().flat_map(|section| section.records.clone()).collect();
        assert_eq!(joined, all);
        let mut at = 0;
        for section in &sections {
            assert_eq!(section.before, states[at]);
            at += section.records.len();
            assert_eq!(section.behind, states[at]);
            assert_eq!(section.ended, at == 5);
        }
    }
}

#[test]
fn sections_of_too_many_rows_are_refused_and_of_none_there_are_none() {
    let tune = held();
    let mut sections = tune.sections(65_536).unwrap();
    assert_eq!(sections.next().unwrap().unwrap_err().number(), 12);
    assert!(sections.next().is_none());
    assert_eq!(tune.sections(0).unwrap().count(), 0);
    assert_eq!(tune.sections(65_535).unwrap().count(), 1);
}

#[test]
fn a_jump_back_repeats_its_rows() {
    let repeat = Repeat {
        rows: 4,
        length: 4 * 7_200,
        back_to: 0,
        order: 0,
        pattern: 0,
        row: 0,
        start: 0,
    };
    assert_eq!(endless().first_repeat(10_000), Ok(Some(repeat)));
    assert_eq!(endless().first_repeat(4), Ok(Some(repeat)));
    assert_eq!(endless().first_repeat(3), Ok(None));
    assert_eq!(held().first_repeat(10_000), Ok(None));
}

#[test]
fn rows_before_the_turn_come_once() {
    // Two rows of order 0, then orders 1 and 2 with three rows each, for ever; 0xFE is skipped.
    let patterns: [&[_]; 2] = [&[put(1, 0, C, 0)], &[put(2, 0, C, 0)]];
    let back = [put(2, 0, B, 1)];
    let tune = Tune::read(&file(&[0, 0xFE, 1, 2], &[patterns[0], patterns[1], &back]), 60_000).unwrap();
    let repeat = tune.first_repeat(100).unwrap().unwrap();
    assert_eq!((repeat.rows, repeat.back_to), (8, 2));
    assert_eq!((repeat.order, repeat.pattern, repeat.row), (2, 1, 0));
    assert_eq!((repeat.length, repeat.start), (8 * 7_200, 2 * 7_200));
}

#[test]
fn a_first_turn_at_another_speed_is_none() {
    // Speed 3 from row 2 on: rows 0 and 1 come at speed 6 only once, rows 2 and 3 are the same in every turn.
    let tune = Tune::read(&file(&[0], &[&[put(2, 0, A, 3), put(3, 0, B, 0)]]), 60_000).unwrap();
    let repeat = tune.first_repeat(100).unwrap().unwrap();
    assert_eq!((repeat.rows, repeat.back_to, repeat.row), (6, 2, 2));
    assert_eq!(repeat.length, 2 * 7_200 + 4 * 3_600);
}

#[test]
fn a_turn_is_found_whatever_its_remainder() {
    let mut tune = endless();
    tune.opening.tempo = 137;
    // A row is 6,569.34 micrometres long, the first turn 26,277.37.
    let repeat = tune.first_repeat(4).unwrap().unwrap();
    assert_eq!((repeat.rows, repeat.back_to, repeat.length), (4, 0, 26_277));
}

/// The first repeat by all rows at once: the least number of rows, of which some last part comes again and again.
fn by_looking(tune: &Tune, rows: usize) -> (usize, usize) {
    let seen: Vec<Vec<u8>> = tune
        .rows(50)
        .unwrap()
        .take(rows)
        .map(|record| record.as_bytes()[..6].to_vec())
        .collect();
    (1..rows / 2)
        .map(|turn| {
            let differs = (0..rows - turn).rev().find(|&i| seen[i] != seen[i + turn]);
            let back_to = differs.map_or(0, |i| i + 1);
            (back_to + turn, back_to)
        })
        .min()
        .unwrap()
}

#[test]
fn repeats_are_those_that_the_rows_show() {
    let turns = [
        vec![put(5, 0, B, 0)],
        vec![put(0, 3, S, 0xB0), put(4, 3, S, 0xB2), put(6, 1, B, 0)],
        vec![put(2, 3, S, 0xB1), put(4, 3, S, 0xB2)],
        vec![put(1, 0, S, 0), put(3, 0, S, 0xE2), put(5, 0, B, 0)],
        vec![put(0, 0, S, 0), put(2, 1, A, 4), put(7, 0, S, 0xD1), put(7, 1, B, 0)],
    ];
    for (i, pattern) in turns.iter().enumerate() {
        let tune = Tune::read(
            &file(&[0, 0, 0xFE], &[&[pattern.clone(), vec![put(9, 5, B, 1)]].concat()]),
            60_000,
        )
        .unwrap();
        let repeat = tune.first_repeat(1_000).unwrap().unwrap();
        assert_eq!(
            (repeat.rows as usize, repeat.back_to as usize),
            by_looking(&tune, 1_000),
            "turn {i}"
        );
    }
}

#[test]
fn from_a_state_rows_are_counted_from_it() {
    let tune = endless();
    let state = states(&tune, 2).pop().unwrap();
    let repeat = tune.first_repeat_from(&state, 100).unwrap().unwrap();
    assert_eq!((repeat.rows, repeat.back_to, repeat.row), (4, 0, 2));
    assert_eq!((repeat.start, repeat.length), (2 * 7_200, 6 * 7_200));
}

#[test]
fn states_and_records_can_be_kept_in_tables() {
    let tune = held();
    let kept: HashMap<State, Record> = tune
        .sections(1)
        .unwrap()
        .map(|section| {
            let section = section.unwrap();
            (section.before, section.records[0].clone())
        })
        .collect();
    assert_eq!(kept.len(), 5);
    assert_eq!(kept[&tune.open().unwrap()].start(), 0);
}
