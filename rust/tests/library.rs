//! The library on 01's worked example: its sheet however it is cut, what a refusal leaves, and states kept as bytes.

use lomqashe::{MOST_ROWS, RECORD_BYTES, Record, State, Tune, measure};

const WORKED: &[u8] = include_bytes!("../../oracle/examples/worked.s3m");
const SHEET: &str = include_str!("../../oracle/examples/worked.sheet");

fn worked() -> Tune {
    Tune::read(WORKED, 60_000).expect("01 reads it")
}

fn lines(tune: &Tune, section: u32) -> Vec<String> {
    let rows = tune.rows(section).expect("it opens");
    rows.map(|record| record.line()).collect()
}

#[test]
fn lines_are_those_of_the_worked_example_whatever_the_cut() {
    let expected: Vec<&str> = SHEET.split_inclusive('\n').collect();
    let expected = &expected[1..expected.len() - 1];
    for section in [1, 2, 3, 50, MOST_ROWS] {
        assert_eq!(lines(&worked(), section), expected);
    }
}

#[test]
fn the_first_row_strikes_channel_0_at_middle_c() {
    let first = worked().rows(1).unwrap().next().unwrap();
    assert_eq!(first.strike_mask(), 1);
    assert_eq!(first.strikes().as_slice(), [0]);
    let channels = first.channels();
    assert_eq!(channels[0].frequency, 8363.0);
    assert_eq!((channels[0].instrument, channels[0].volume), (1, 63));
    assert!(channels[0].active && !channels[1].active);
}

#[test]
fn a_state_kept_as_bytes_goes_on_where_it_stopped() {
    let tune = worked();
    let mut state = tune.open().unwrap();
    let mut output = [0; RECORD_BYTES];
    tune.section(&mut state, 1, &mut output).unwrap();
    let kept = *state.as_bytes();
    let rest: Vec<_> = tune
        .rows_from(State::from_bytes(&kept), 7)
        .unwrap()
        .map(|record| record.line())
        .collect();
    assert_eq!(rest, lines(&tune, 50)[1..]);
}

#[test]
fn a_refused_section_writes_nothing() {
    let tune = worked();
    let opened = tune.open().unwrap();
    let mut state = opened.clone();
    let mut output = [0xA5; 3 * RECORD_BYTES - 1];
    let refusal = tune.section(&mut state, 3, &mut output).unwrap_err();
    assert_eq!(refusal.number(), 12);
    assert_eq!(state, opened);
    assert!(output.iter().all(|&byte| byte == 0xA5));
}

#[test]
fn bytes_behind_the_last_record_stay() {
    let tune = worked();
    let mut state = tune.open().unwrap();
    let mut output = [0xA5; 5 * RECORD_BYTES + 9];
    let section = tune.section(&mut state, 5, &mut output).unwrap();
    assert_eq!((section.rows, section.ended), (3, true));
    assert!(output[3 * RECORD_BYTES..].iter().all(|&byte| byte == 0xA5));
}

#[test]
fn states_and_opening_values_out_of_range_are_refused() {
    let tune = worked();
    let opened = tune.open().unwrap();
    // Row 64, loop start 64, speed 0, tempo 31, rate 0 and 100,001, remainder 250 and 256 at tempo 125, start above 2^62, a
    // frequency and a target that are no number, transpositions 25 and -25.
    let edits: [(usize, &[u8]); 13] = [
        (1, &[64]),
        (6, &[64]),
        (10, &[0]),
        (11, &[31]),
        (16, &[0; 4]),
        (16, &[0xA1, 0x86, 1, 0]),
        (20, &[250, 0]),
        (20, &[0, 1]),
        (24, &[1, 0, 0, 0, 0, 0, 0, 0x40]),
        (64, &[1, 0, 0x80, 0x7F]),
        (64 + 31 * 80 + 4, &[0, 0, 0xC0, 0xFF]),
        (64 + 45, &[25]),
        (64 + 31 * 80 + 45, &[231]),
    ];
    for (at, new) in edits {
        let mut bytes = *opened.as_bytes();
        bytes[at..at + new.len()].copy_from_slice(new);
        let mut state = State::from_bytes(&bytes);
        let refusal = tune.section(&mut state, 0, &mut []).unwrap_err();
        assert_eq!(refusal.number(), 11, "at {at}");
        assert_eq!(state.as_bytes(), &bytes);
    }
    let mut fast = tune.clone();
    fast.opening.rate = 100_001;
    assert_eq!(fast.open().unwrap_err().number(), 10);
    let mut empty = tune.clone();
    empty.orders.clear();
    assert_eq!(empty.open().unwrap_err().number(), 9);
}

#[test]
fn the_remainder_goes_into_the_next_rows_length() {
    let mut tune = worked();
    tune.opening.rate = 60_001;
    let mut bytes = *tune.open().unwrap().as_bytes();
    assert_eq!(bytes[20..24], [0; 4]);
    // The most at tempo 125, and spare bytes that are not read.
    bytes[20..24].copy_from_slice(&[249, 0, 7, 7]);
    let mut state = State::from_bytes(&bytes);
    let mut output = [0; RECORD_BYTES];
    tune.section(&mut state, 1, &mut output).unwrap();
    // 6 * 5 * 60,001 + 249 = 7,201 * 250 + 29.
    assert_eq!(Record::from_bytes(&output).length(), 7_201);
    assert_eq!((state.start(), state.remainder()), (7_201, 29));
    assert_eq!(state.as_bytes()[20..24], [29, 0, 0, 0]);
}

#[test]
fn a_file_is_refused_by_the_first_rule_that_it_breaks() {
    let edited = |at: usize, new: &[u8]| {
        let mut file = WORKED.to_vec();
        file[at..at + new.len()].copy_from_slice(new);
        file
    };
    let refused = |file: &[u8]| Tune::read(file, 60_000).unwrap_err().number();
    assert_eq!(refused(&WORKED[..95]), 1);
    assert_eq!(refused(&edited(44, b"SCRN")), 2);
    assert_eq!(refused(&edited(32, &[0, 0])), 3);
    assert_eq!(refused(&WORKED[..100]), 4);
    assert_eq!(refused(&edited(49, &[0])), 5);
    assert_eq!(refused(&edited(97, &[0xFF, 0x0F])), 7);
    assert_eq!(refused(&WORKED[..WORKED.len() - 1]), 8);
    let counts = measure(WORKED).unwrap();
    assert_eq!((counts.orders, counts.instruments, counts.patterns), (1, 1, 1));
}
