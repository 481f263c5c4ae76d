//! The command on 01's worked example.

mod common;

use common::{SHEET, WORKED, run, text};
use std::fs;

#[test]
fn a_file_and_standard_input_have_one_sheet() {
    let file = fs::read(WORKED).unwrap();
    let ways: [(&[&str], &[u8]); 5] = [
        (&[WORKED], b""),
        (&[], &file),
        (&["-"], &file),
        (&["--sections", "1", WORKED], b""),
        (&["--sections=65535", "--", WORKED], b""),
    ];
    for (words, input) in ways {
        let output = run(words, input);
        assert_eq!(text(&output.stdout), SHEET, "{words:?}");
        assert_eq!(output.status.code(), Some(0));
    }
}

#[test]
fn fewer_rows_say_more() {
    let output = run(&["--rows", "2", WORKED], b"");
    assert!(text(&output.stdout).ends_with("\nmore,2,14400\n"));
    // The third row is the last: its leave ends the tune.
    let output = run(&["--rows", "3", WORKED], b"");
    assert!(text(&output.stdout).ends_with("\nend,3,18000\n"));
}

#[test]
fn a_rate_stretches_the_card() {
    let output = run(&["--rate", "100000", WORKED], b"");
    assert!(text(&output.stdout).ends_with("\nend,3,30000\n"));
}

#[test]
fn channels_have_a_line_each() {
    let output = run(&["--channels", WORKED], b"");
    let lines: Vec<&str> = text(&output.stdout).lines().collect();
    assert_eq!(lines.len(), 1 + 3 * 32 + 1);
    assert_eq!(
        lines[0],
        "order,pattern,row,held,speed,tempo,global_volume,start,length,channel,struck,active,frequency,target,\
         instrument,volume,pan,last_note,delay_tick,voice_global_volume,voice"
    );
    assert_eq!(lines[1], "0,0,0,0,6,125,64,0,7200,0,1,1,8363,8363,1,63,3,64,0,64,none");
    assert!(lines[32 + 1].starts_with("0,0,0,1,6,125,64,7200,7200,0,0,"));
    assert_eq!(lines[lines.len() - 1], "end,3,18000");
}

#[test]
fn a_refusal_is_told_in_words_with_status_1() {
    let output = run(&[], b"no tune");
    assert_eq!(output.status.code(), Some(1));
    assert!(text(&output.stdout).ends_with("\nrefused,1\n"));
    assert_eq!(
        text(&output.stderr),
        "lomqashe: refused: the file is shorter than 96 bytes (rule 1)\n"
    );
}

#[test]
fn a_wrong_command_line_has_status_2() {
    for words in [
        &["--rate", "0"][..],
        &["--sections", "0"],
        &["--svg"],
        &["--svg="],
        &["--svg", "-"],
        &["--save", "-"],
        &["--from=-"],
        &["--from", WORKED, "--rate", "1"],
        &["--loud"],
        &["--channels=yes", WORKED],
        &["--once=no", WORKED],
        &["--closed=yes", WORKED],
        &["--help=no"],
        &["--version="],
        &["--=", WORKED],
        &["a", "b"],
        &["/no/such/file"],
    ] {
        let output = run(words, b"");
        assert_eq!(output.status.code(), Some(2), "{words:?}");
        assert!(output.stdout.is_empty() && !output.stderr.is_empty());
    }
}

#[test]
fn help_and_version_are_on_standard_output() {
    assert!(text(&run(&["--help"], b"").stdout).contains("usage: lomqashe"));
    assert_eq!(text(&run(&["--version"], b"").stdout), "lomqashe 0.1.0\n");
}
