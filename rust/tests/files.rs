//! The command and its files: what is written where nobody reads the sheet, what is never written over, states kept between
//! runs, and endless tunes.

mod common;

use common::{Folder, LOMQASHE, SHEET, WORKED, endless, held, run, text, unread};
use std::ffi::OsString;
use std::fs;
use std::os::unix::ffi::OsStringExt;
use std::os::unix::fs::symlink;
use std::process::{Command, Stdio};

#[test]
fn files_are_written_though_nobody_reads_the_sheet() {
    let folder = Folder::new("unread");
    let (svg, state) = (folder.path("book.svg"), folder.path("state"));
    let tune = folder.write("endless.s3m", &endless());
    let output = unread(&["--rows", "3000", "--svg", &svg, "--save", &state, &tune]);
    assert_eq!(output.status.code(), Some(0));
    assert!(fs::read_to_string(&svg).unwrap().ends_with("</svg>\n"));
    let next = run(&["--rows", "0", "--from", &state, &tune], b"");
    assert!(text(&next.stdout).ends_with("\nmore,3000,21600000\n"));
}

#[test]
fn without_a_file_to_write_it_stops_where_the_reader_has_gone() {
    let folder = Folder::new("gone");
    let tune = folder.write("endless.s3m", &endless());
    // Four thousand million rows would take hours.
    let output = unread(&["--rows", "4294967295", &tune]);
    assert_eq!(output.status.code(), Some(0));
    assert!(output.stderr.is_empty());
}

#[test]
fn a_refusal_is_told_though_nobody_reads_the_sheet() {
    let folder = Folder::new("refused");
    let output = unread(&[&folder.write("no tune", b"no tune")]);
    assert_eq!(output.status.code(), Some(1));
    assert!(text(&output.stderr).contains("rule 1"));
}

#[test]
fn memory_does_not_grow_with_the_rows() {
    let folder = Folder::new("memory");
    let tune = folder.write("endless.s3m", &endless());
    let (svg, records) = (folder.path("book.svg"), folder.path("records"));
    // Records of these rows have 43 million bytes, and their lines and drawing some more: 32 million are lent. The card is
    // slow, so that the drawing is not too large.
    for words in [
        &["--channels"][..],
        &["--svg", &svg, "--rate", "500"],
        &["--records", &records],
    ] {
        let output = Command::new("sh")
            .args([
                "-c",
                "ulimit -v 32000 && exec \"$0\" \"$@\"",
                LOMQASHE,
                "--rows",
                "80000",
            ])
            .args(words)
            .arg(&tune)
            .stdout(Stdio::null())
            .output()
            .unwrap();
        assert_eq!(output.status.code(), Some(0), "{words:?}: {}", text(&output.stderr));
    }
    assert!(fs::metadata(&svg).unwrap().len() > 3_000_000);
    assert_eq!(fs::metadata(&records).unwrap().len(), 80_000 * 536);
}

#[test]
fn nothing_is_written_over_the_tune() {
    let folder = Folder::new("over");
    let tune = folder.write("tune.s3m", &held());
    let (soft, hard) = (folder.path("soft"), folder.path("hard"));
    symlink(&tune, &soft).unwrap();
    fs::hard_link(&tune, &hard).unwrap();
    for name in [&tune, &soft, &hard] {
        for option in ["--svg", "--save"] {
            let output = run(&[option, name, &tune], b"");
            assert_eq!(output.status.code(), Some(2));
            assert!(output.stdout.is_empty() && text(&output.stderr).contains("names the tune"));
            let input = fs::File::open(&tune).unwrap();
            let redirected = Command::new(LOMQASHE)
                .args([option, name])
                .stdin(input)
                .output()
                .unwrap();
            assert_eq!(redirected.status.code(), Some(2));
        }
    }
    assert_eq!(fs::read(&tune).unwrap(), held());
}

#[test]
fn files_written_are_apart_from_each_other_and_from_the_state_read() {
    let folder = Folder::new("apart");
    let (one, state) = (folder.path("one"), folder.path("state"));
    fs::create_dir(folder.path("inner")).unwrap();
    // Another name of a file that is not there yet, too.
    for other in [&one, &folder.path("inner/../one")] {
        let output = run(&["--svg", &one, "--save", other, WORKED], b"");
        assert_eq!(output.status.code(), Some(2));
        assert!(text(&output.stderr).contains("--svg and --save name one file"));
        assert!(!fs::exists(&one).unwrap());
    }
    assert_eq!(
        run(&["--rows", "1", "--save", &state, WORKED], b"").status.code(),
        Some(0)
    );
    assert_eq!(
        run(&["--from", &state, "--svg", &state, WORKED], b"").status.code(),
        Some(2)
    );
    // A state may be saved over the one that was gone on from.
    let output = run(&["--from", &state, "--save", &state, WORKED], b"");
    assert_eq!(output.status.code(), Some(0));
    let output = run(&["--from", &state, WORKED], b"");
    assert_eq!(text(&output.stdout).lines().collect::<Vec<_>>()[1..], ["end,3,18000"]);
}

#[test]
fn names_that_are_no_text_are_kept() {
    let folder = Folder::new("names");
    let name = |prefix: &str| {
        let path = [prefix.as_bytes(), folder.path("b").as_bytes(), b"\xFF\xFE.svg"].concat();
        OsString::from_vec(path)
    };
    let output = Command::new(LOMQASHE)
        .args([name("--svg="), WORKED.into()])
        .output()
        .unwrap();
    assert_eq!(output.status.code(), Some(0));
    assert!(fs::read_to_string(name("")).unwrap().starts_with("<svg"));
}

/// The sheet of runs that each stop behind so many rows: each but the first without its title, each but the last without
/// its last line.
fn joined(folder: &Folder, tune: &str, runs: &[&str]) -> String {
    let state = folder.path("state");
    let mut out = String::new();
    for (i, rows) in runs.iter().enumerate() {
        let words: &[&str] = match i {
            0 => &["--rows", rows, "--save", &state, tune],
            _ => &["--rows", rows, "--from", &state, "--save", &state, tune],
        };
        let output = run(words, b"");
        assert_eq!(output.status.code(), Some(0));
        let sheet = text(&output.stdout);
        let lines: Vec<&str> = sheet.split_inclusive('\n').collect();
        let last = lines.len() - usize::from(i + 1 < runs.len());
        out.extend(lines[usize::from(i > 0)..last].iter().copied());
    }
    out
}

#[test]
fn sheets_of_separate_runs_join_to_the_sheet() {
    let folder = Folder::new("joined");
    for runs in [&["0", "9"][..], &["1", "9"], &["2", "9"], &["1", "1", "1"], &["3", "9"]] {
        assert_eq!(joined(&folder, WORKED, runs), SHEET, "{runs:?}");
    }
    // Behind two rows and behind three the next row is held.
    let tune = folder.write("held.s3m", &held());
    let sheet = "order,pattern,row,held,speed,tempo,start,length,strikes\n0,0,0,0,6,125,0,7200,1\n\
                 0,0,1,0,6,125,7200,7200,0\n0,0,1,1,6,125,14400,7200,0\n0,0,1,1,6,125,21600,7200,0\n\
                 0,0,2,0,6,125,28800,7200,1\nend,5,36000\n";
    for runs in [&["9"][..], &["2", "9"], &["3", "9"], &["2", "1", "1", "9"], &["5", "9"]] {
        assert_eq!(joined(&folder, &tune, runs), sheet, "{runs:?}");
    }
}

#[test]
fn a_state_in_a_file_keeps_its_remainder() {
    let folder = Folder::new("remainder");
    let mut tune = held();
    tune[50] = 137;
    let tune = folder.write("held.s3m", &tune);
    // A row is 1,800,000 / 274 = 6,569.34 micrometres long.
    let sheet = "order,pattern,row,held,speed,tempo,start,length,strikes\n0,0,0,0,6,137,0,6569,1\n\
                 0,0,1,0,6,137,6569,6569,0\n0,0,1,1,6,137,13138,6570,0\n0,0,1,1,6,137,19708,6569,0\n\
                 0,0,2,0,6,137,26277,6569,1\nend,5,32846\n";
    for runs in [&["9"][..], &["2", "9"], &["1", "1", "1", "1", "1"]] {
        assert_eq!(joined(&folder, &tune, runs), sheet, "{runs:?}");
    }
}

#[test]
fn a_file_that_is_no_state_is_told() {
    let folder = Folder::new("no-state");
    let state = folder.path("state");
    run(&["--rows", "1", "--save", &state, WORKED], b"");
    let saved = fs::read(&state).unwrap();
    let mut later = saved.clone();
    later[15] = b'2';
    let bare = &saved[saved.len() - 2_624..];
    for bytes in [
        b"".as_slice(),
        bare,
        &saved[..saved.len() - 1],
        &[&saved[..], b"x"].concat(),
        &later,
    ] {
        let output = run(&["--from", &folder.write("other", bytes), WORKED], b"");
        assert_eq!(output.status.code(), Some(2));
        assert!(text(&output.stderr).contains("no state that this version of lomqashe saved"));
    }
    // Row 64.
    let mut broken = saved.clone();
    broken[saved.len() - 2_624 + 1] = 64;
    let output = run(&["--from", &folder.write("broken", &broken), WORKED], b"");
    assert_eq!(output.status.code(), Some(1));
    assert!(text(&output.stdout).ends_with("strikes\nrefused,11\n"));
    assert!(text(&output.stderr).contains("row or loop start is above 63") && text(&output.stderr).contains("rule 11"));
}

#[test]
fn an_endless_tune_is_printed_once() {
    let folder = Folder::new("once");
    let tune = folder.write("endless.s3m", &endless());
    let output = run(&["--once", &tune], b"");
    assert_eq!(output.status.code(), Some(0));
    let lines: Vec<&str> = text(&output.stdout).lines().collect();
    assert_eq!(lines.len(), 1 + 4 + 1);
    assert_eq!(lines[4..], ["0,0,3,0,6,125,21600,7200,0", "repeats,4,28800"]);
    assert_eq!(
        text(&output.stderr),
        "lomqashe: repeats: row 4 is row 0 again (order 0, pattern 0, row 0, start 0); rows are counted from 0\n"
    );
    assert!(text(&run(&["--once", "--rows", "3", &tune], b"").stdout).ends_with("\nmore,3,21600\n"));
    assert_eq!(text(&run(&["--once", WORKED], b"").stdout), SHEET);
}

#[test]
fn once_counts_the_rows_of_earlier_runs() {
    let folder = Folder::new("once-from");
    let (tune, state) = (folder.write("endless.s3m", &endless()), folder.path("state"));
    run(&["--rows", "2", "--save", &state, &tune], b"");
    let output = run(&["--once", "--from", &state, &tune], b"");
    assert!(text(&output.stdout).ends_with("\nrepeats,6,43200\n"));
    assert!(text(&output.stderr).contains("row 6 is row 2 again (order 0, pattern 0, row 2, start 14400)"));
}
