//! The struck channels from the lowest frequency up: of records made by hand, and in the command's sheet.

mod common;

use common::{B, Folder, S, WORKED, file, pitched, put, run, text};
use lomqashe::{RECORD_BYTES, Record, Tune};
use std::fs;

/// The list of a record whose channels of the mask strike, with the frequencies of the first channels.
fn struck(mask: u32, frequencies: &[f32]) -> Vec<u8> {
    let mut bytes = [0x5A; RECORD_BYTES];
    bytes[16..20].copy_from_slice(&mask.to_le_bytes());
    for (channel, frequency) in frequencies.iter().enumerate() {
        bytes[24 + 16 * channel..][..4].copy_from_slice(&frequency.to_le_bytes());
    }
    Record::from_bytes(&bytes).strikes().into_iter().collect()
}

const NAN: f32 = f32::NAN;
const INFINITY: f32 = f32::INFINITY;
const LEAST: f32 = f32::from_bits(1);
const SIGNALLING: f32 = f32::from_bits(0x7F80_0001);

#[test]
fn numbers_rise_and_equal_ones_stand_by_channel() {
    assert_eq!(struck(0b1111, &[880.0, 440.0, 880.0, 220.0]), [3, 1, 0, 2]);
    assert_eq!(struck(0b111, &[-1.0, -3.0, -2.0]), [1, 2, 0]);
    assert_eq!(
        struck(0b111, &[8363.0_f32.next_up(), 8363.0, 8363.0_f32.next_down()]),
        [2, 1, 0]
    );
    assert_eq!(struck(0b11111, &[0.0, -LEAST, -0.0, LEAST, 0.0]), [1, 0, 2, 4, 3]);
    assert_eq!(struck(u32::MAX, &[8363.0; 32]), Vec::from_iter(0..32));
    assert_eq!(
        struck(u32::MAX, &std::array::from_fn::<_, 32, _>(|k| -(k as f32))),
        Vec::from_iter((0..32).rev())
    );
}

#[test]
fn infinities_are_about_all_numbers_and_no_number_is_last() {
    assert_eq!(struck(0b1111, &[INFINITY, f32::MAX, f32::MIN, -INFINITY]), [3, 2, 1, 0]);
    assert_eq!(
        struck(0b11_1111, &[NAN, INFINITY, -NAN, 0.0, SIGNALLING, -INFINITY]),
        [5, 3, 1, 0, 2, 4]
    );
    assert_eq!(struck(0b1111, &[-SIGNALLING, NAN, -NAN, SIGNALLING]), [0, 1, 2, 3]);
}

#[test]
fn channels_that_are_not_struck_are_not_listed() {
    assert_eq!(
        struck(0b1010_0101, &[8.0, 7.0, 6.0, 5.0, 4.0, 3.0, 2.0, 1.0]),
        [7, 5, 2, 0]
    );
    assert_eq!(struck(1 << 31, &[1.0]), [31]);
    assert!(struck(0, &[1.0; 32]).is_empty());
}

/// Four strikes on row 0, none on row 1, which is held once, and two on row 2, then a jump past the last order.
fn chords() -> Vec<u8> {
    let first = [
        pitched(0, 0, 0x50),
        pitched(0, 9, 0x30),
        pitched(0, 10, 0x40),
        pitched(0, 31, 0x30),
    ];
    let second = [
        put(1, 1, S, 0xE1),
        pitched(2, 4, 0x41),
        pitched(2, 5, 0x40),
        put(2, 1, B, 9),
    ];
    file(&[0xFE, 0], &[&[first, second].concat()])
}

const TITLE: &str = "order,pattern,row,held,start,channels\n";
const ROWS: [&str; 4] = [
    "1,0,0,0,0,9 31 10 0\n",
    "1,0,1,0,7200,\n",
    "1,0,1,1,14400,\n",
    "1,0,2,0,21600,5 4\n",
];
const END: &str = "end,4,28800\n";

#[test]
fn sections_give_frequencies_to_go_by() {
    let tune = Tune::read(&chords(), 60_000).unwrap();
    let record = tune.rows(50).unwrap().next().unwrap();
    assert_eq!(record.strike_mask(), 1 << 31 | 0b110_0000_0001);
    let frequencies: Vec<f32> = record
        .strikes()
        .into_iter()
        .map(|k| record.channels()[usize::from(k)].frequency)
        .collect();
    // Note 0x40 is 8363, and periods of the octaves about it are halves and doubles.
    assert_eq!(frequencies, [4181.5, 4181.5, 8363.0, 16_726.0]);
}

#[test]
fn the_command_lists_them_in_each_row() {
    let folder = Folder::new("strikes");
    let tune = folder.write("chords.s3m", &chords());
    let sheet = [TITLE, &ROWS.concat(), END].concat();
    for words in [
        &["--strikes"][..],
        &["--strikes", "--strikes"],
        &["--sections", "1", "--strikes", "--once"],
    ] {
        let output = run(&[words, &[&tune]].concat(), b"");
        assert_eq!(text(&output.stdout), sheet, "{words:?}");
        assert_eq!(output.status.code(), Some(0));
    }
    let output = run(&["--strikes", "--rows", "1", &tune], b"");
    assert_eq!(text(&output.stdout), [TITLE, ROWS[0], "more,1,7200\n"].concat());
    let output = run(&["--strikes"], b"no tune");
    assert_eq!(text(&output.stdout), [TITLE, "refused,1\n"].concat());
    assert_eq!(output.status.code(), Some(1));
}

#[test]
fn the_command_draws_saves_and_goes_on_beside_them() {
    let folder = Folder::new("strikes-files");
    let tune = folder.write("chords.s3m", &chords());
    let (svg, state) = (folder.path("book.svg"), folder.path("state"));
    let output = run(
        &["--strikes", "--rows", "2", "--svg", &svg, "--save", &state, &tune],
        b"",
    );
    assert_eq!(
        text(&output.stdout),
        [TITLE, ROWS[0], ROWS[1], "more,2,14400\n"].concat()
    );
    assert!(fs::read_to_string(&svg).unwrap().contains("2 rows, 4 strikes"));
    let output = run(&["--from", &state, "--strikes", &tune], b"");
    assert_eq!(text(&output.stdout), [TITLE, ROWS[2], ROWS[3], END].concat());
}

#[test]
fn a_sheet_of_two_forms_is_a_wrong_command_line() {
    for words in [["--strikes", "--channels", WORKED], ["--channels", "--strikes", WORKED]] {
        let output = run(&words, b"");
        assert_eq!(output.status.code(), Some(2));
        assert!(output.stdout.is_empty() && text(&output.stderr).contains("--strikes does not go with --channels"));
    }
    assert_eq!(run(&["--strikes=no", WORKED], b"").status.code(), Some(2));
    assert_eq!(run(&["--channels", "--channels", WORKED], b"").status.code(), Some(0));
}
