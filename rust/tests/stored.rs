//! The command's records in files: as they are, in column order, and the sheet of a stored file.

mod common;

use common::{Folder, LOMQASHE, SHEET, WORKED, endless, file, held, run, text, unread};
use lomqashe::{Record, Tune};
use std::fs;
use std::os::unix::fs::symlink;
use std::process::{Command, Stdio};

const TITLE: &str = "order,pattern,row,held,speed,tempo,start,length,strikes\n";

/// The bytes of a tune's first rows, by the library.
fn walked(tune: &[u8], rows: usize) -> Vec<u8> {
    let tune = Tune::read(tune, 60_000).unwrap();
    let records: Vec<Record> = tune.rows(50).unwrap().take(rows).collect();
    records.iter().flat_map(|record| *record.as_bytes()).collect()
}

/// 02's columns of such records: each byte but a column's first as its wrapping difference from the one before.
fn columns_of(records: &[u8]) -> Vec<u8> {
    let m = records.len() / 536;
    let mut out = Vec::with_capacity(records.len());
    for column in 0..536 {
        out.push(records[column]);
        for row in 1..m {
            out.push(records[row * 536 + column].wrapping_sub(records[(row - 1) * 536 + column]));
        }
    }
    out
}

/// Runs the command, which takes all.
fn taken(words: &[&str]) -> String {
    let output = run(words, b"");
    assert_eq!(output.status.code(), Some(0), "{words:?}: {}", text(&output.stderr));
    assert!(output.stderr.is_empty());
    text(&output.stdout).into()
}

#[test]
fn records_and_columns_of_the_printed_rows_are_written() {
    let folder = Folder::new("written");
    let (records, columns) = (folder.path("records"), folder.path("columns"));
    let tune = folder.write("held.s3m", &held());
    for rows in [1, 2, 3, 5, 9] {
        let words = [
            "--records",
            &records,
            "--columns",
            &columns,
            "--rows",
            &rows.to_string(),
            &tune,
        ];
        let sheet = taken(&words);
        assert_eq!(sheet, taken(&words[4..]));
        let expected = walked(&held(), rows);
        assert_eq!(expected.len(), rows.min(5) * 536);
        assert_eq!(fs::read(&records).unwrap(), expected, "{rows} rows");
        assert_eq!(fs::read(&columns).unwrap(), columns_of(&expected), "{rows} rows");
    }
}

#[test]
fn the_sections_and_the_form_do_not_count() {
    let folder = Folder::new("form");
    let (records, columns) = (folder.path("records"), folder.path("columns"));
    let expected = walked(&fs::read(WORKED).unwrap(), 3);
    for words in [
        &["--sections", "1"][..],
        &["--sections=2", "--strikes"],
        &["--channels"],
        &["--once"],
    ] {
        taken(&[words, &["--records", &records, "--columns", &columns, WORKED]].concat());
        assert_eq!(fs::read(&records).unwrap(), expected, "{words:?}");
        assert_eq!(fs::read(&columns).unwrap(), columns_of(&expected), "{words:?}");
    }
}

#[test]
fn from_a_state_on_they_have_the_rows_of_this_run() {
    let folder = Folder::new("from-state");
    let (state, records, columns) = (folder.path("state"), folder.path("records"), folder.path("columns"));
    let tune = folder.write("held.s3m", &held());
    taken(&["--rows", "2", "--save", &state, &tune]);
    taken(&["--from", &state, "--records", &records, "--columns", &columns, &tune]);
    let expected = &walked(&held(), 5)[2 * 536..];
    assert_eq!(fs::read(&records).unwrap(), expected);
    assert_eq!(fs::read(&columns).unwrap(), columns_of(expected));
}

#[test]
fn a_stored_file_prints_the_rows_of_its_tune() {
    let folder = Folder::new("restored");
    let columns = folder.path("columns");
    taken(&["--columns", &columns, WORKED]);
    assert_eq!(taken(&["--restore", &columns]), SHEET.replace("end,", "restored,"));
    let tune = folder.write("held.s3m", &held());
    for form in [&[][..], &["--strikes"], &["--channels"]] {
        let sheet = taken(&[form, &["--columns", &columns, "--rows", "4", &tune]].concat());
        assert!(sheet.ends_with("\nmore,4,28800\n"));
        let restored = taken(&[form, &[&format!("--restore={columns}")]].concat());
        assert_eq!(restored, sheet.replace("more,", "restored,"), "{form:?}");
    }
}

#[test]
fn restored_records_are_those_that_were_stored() {
    let folder = Folder::new("back");
    let (records, columns, back) = (folder.path("records"), folder.path("columns"), folder.path("back"));
    let tune = folder.write("held.s3m", &held());
    taken(&["--records", &records, "--columns", &columns, &tune]);
    taken(&["--restore", &columns, "--records", &back]);
    assert_eq!(fs::read(&back).unwrap(), fs::read(&records).unwrap());
    assert_eq!(fs::read(&back).unwrap(), walked(&held(), 5));
}

/// Any bytes are columns of records: here byte k is k, and record 1 has all bytes doubled.
#[test]
fn a_file_of_any_bytes_is_restored() {
    let folder = Folder::new("any-bytes");
    let bytes: Vec<u8> = (0..536).flat_map(|k| [k as u8; 2]).collect();
    let (columns, records) = (folder.write("any", &bytes), folder.path("records"));
    let sheet = taken(&["--restore", &columns, "--records", &records]);
    let expected: Vec<u8> = (0..2 * 536).map(|i| (i % 536 * (1 + i / 536)) as u8).collect();
    assert_eq!(fs::read(&records).unwrap(), expected);
    let lines: Vec<&str> = sheet.lines().collect();
    let (start, length): (u64, u64) = (0x1E1C_1A18_1614_1210, 0x2E2C_2A28);
    assert!(lines[2].starts_with(&format!("0,2,4,6,8,10,{start},{length},")));
    assert_eq!(lines[3], format!("restored,2,{}", start + length));
    assert_eq!(lines.len(), 4);
}

#[test]
fn a_length_that_no_number_holds_is_the_largest() {
    let folder = Folder::new("longest");
    let columns = folder.write("ones", &[255; 536]);
    assert!(taken(&["--restore", &columns]).ends_with("\nrestored,1,18446744073709551615\n"));
}

#[test]
fn files_of_other_sizes_are_refused_by_rule_16() {
    let folder = Folder::new("sizes");
    let (columns, records) = (folder.path("columns"), folder.path("records"));
    for size in [0, 1, 535, 537, 65_535 * 536 + 1, 65_536 * 536, 1 << 40] {
        // It takes no room: all its bytes are 0.
        fs::File::create(&columns).unwrap().set_len(size).unwrap();
        let output = run(&["--restore", &columns, "--records", &records], b"");
        assert_eq!(output.status.code(), Some(1), "{size} bytes");
        assert_eq!(text(&output.stdout), format!("{TITLE}refused,16\n"));
        assert_eq!(
            text(&output.stderr),
            "lomqashe: refused: the records to store or restore are not 1 to 65,535 of 536 bytes each, or the output has \
             another length (rule 16)\n"
        );
        assert!(!fs::exists(&records).unwrap());
    }
    let output = run(&["--restore", &columns, "--strikes"], b"");
    assert_eq!(
        text(&output.stdout),
        "order,pattern,row,held,start,channels\nrefused,16\n"
    );
}

#[test]
fn no_rows_make_no_columns_but_records_of_no_bytes() {
    let folder = Folder::new("no-rows");
    let (records, columns) = (folder.path("records"), folder.path("columns"));
    let empty = folder.write("empty.s3m", &file(&[0xFF], &[]));
    for (words, last) in [(&["--rows", "0", WORKED][..], "more,0,0"), (&[&empty], "end,0,0")] {
        fs::write(&columns, "kept").unwrap();
        let output = run(&[&["--records", &records, "--columns", &columns], words].concat(), b"");
        assert_eq!(output.status.code(), Some(1));
        assert_eq!(text(&output.stdout), format!("{TITLE}{last}\n"));
        assert!(text(&output.stderr).contains("(rule 16)"));
        assert_eq!(fs::read(&records).unwrap(), b"");
        assert_eq!(fs::read(&columns).unwrap(), b"kept");
    }
}

#[test]
fn the_most_rows_are_stored_and_one_more_is_refused() {
    let folder = Folder::new("most");
    let (columns, records) = (folder.path("columns"), folder.path("records"));
    let tune = folder.write("endless.s3m", &endless());
    let sheet = taken(&["--rows", "65535", "--columns", &columns, &tune]);
    let expected = walked(&endless(), 65_535);
    assert!(fs::read(&columns).unwrap() == columns_of(&expected));
    let restored = taken(&["--restore", &columns, "--records", &records]);
    assert!(sheet.ends_with("\nmore,65535,471852000\n"));
    assert!(restored == sheet.replace("more,", "restored,"));
    assert!(fs::read(&records).unwrap() == expected);
    fs::remove_file(&columns).unwrap();
    let output = run(
        &["--rows", "65536", "--columns", &columns, "--records", &records, &tune],
        b"",
    );
    assert_eq!(output.status.code(), Some(1));
    assert!(text(&output.stdout).ends_with("\nmore,65536,471859200\n"));
    assert!(text(&output.stderr).contains("(rule 16)"));
    assert!(!fs::exists(&columns).unwrap());
    assert_eq!(fs::metadata(&records).unwrap().len(), 65_536 * 536);
}

/// Records of 65,536 rows have 35 million bytes, of all these rows 134 million.
#[test]
fn too_many_rows_are_not_held() {
    let folder = Folder::new("held");
    let (tune, columns) = (folder.write("endless.s3m", &endless()), folder.path("columns"));
    let output = Command::new("sh")
        .args(["-c", "ulimit -v 80000 && exec \"$0\" \"$@\"", LOMQASHE])
        .args(["--rows", "250000", "--columns", &columns, &tune])
        .stdout(Stdio::null())
        .output()
        .unwrap();
    assert_eq!(output.status.code(), Some(1), "{}", text(&output.stderr));
    assert!(text(&output.stderr).contains("(rule 16)"));
}

#[test]
fn they_are_written_though_nobody_reads_the_sheet() {
    let folder = Folder::new("unread-records");
    let (records, columns, back) = (folder.path("records"), folder.path("columns"), folder.path("back"));
    let tune = folder.write("endless.s3m", &endless());
    for words in [&["--records", &records][..], &["--columns", &columns]] {
        let output = unread(&[words, &["--rows", "3000", &tune]].concat());
        assert_eq!(output.status.code(), Some(0), "{}", text(&output.stderr));
    }
    let expected = walked(&endless(), 3_000);
    assert!(fs::read(&records).unwrap() == expected);
    assert!(fs::read(&columns).unwrap() == columns_of(&expected));
    assert_eq!(
        unread(&["--restore", &columns, "--records", &back]).status.code(),
        Some(0)
    );
    assert!(fs::read(&back).unwrap() == expected);
}

#[test]
fn a_refusal_is_told_though_nobody_reads_the_sheet() {
    let folder = Folder::new("unread-refused");
    let (tune, columns) = (folder.write("endless.s3m", &endless()), folder.path("columns"));
    // Four thousand million rows would take hours: it stops where there are too many to store.
    let output = unread(&["--rows", "4294967295", "--columns", &columns, &tune]);
    assert_eq!(output.status.code(), Some(1));
    assert!(text(&output.stderr).contains("(rule 16)"));
    assert!(!fs::exists(&columns).unwrap());
    let output = unread(&["--restore", &folder.write("short", &[0; 535])]);
    assert_eq!(output.status.code(), Some(1));
    assert!(text(&output.stderr).contains("(rule 16)"));
}

/// A command line that is refused as a whole: nothing is printed, and standard error says why.
fn wrong(words: &[&str], why: &str) {
    let output = run(words, b"");
    assert_eq!(output.status.code(), Some(2), "{words:?}");
    assert!(output.stdout.is_empty());
    assert!(
        text(&output.stderr).contains(why),
        "{words:?}: {}",
        text(&output.stderr)
    );
}

#[test]
fn restore_goes_with_forms_and_records_alone() {
    let folder = Folder::new("alone");
    let (columns, other) = (folder.path("columns"), folder.path("other"));
    taken(&["--columns", &columns, WORKED]);
    // Values that are those of no option at all are told too.
    for words in [
        &["--rate", "60000"][..],
        &["--transpose", "0"],
        &["--rows", "10000"],
        &["--once"],
        &["--closed"],
        &["--sections", "50"],
        &["--svg", &other],
        &["--save", &other],
        &["--from", &other],
        &["--columns", &other],
    ] {
        let why = format!("{} does not go with --restore", words[0]);
        wrong(&[&["--restore", &columns], words].concat(), &why);
        wrong(&[words, &["--restore", &columns]].concat(), &why);
    }
    for tune in [WORKED, "-"] {
        wrong(&["--restore", &columns, tune], "a tune does not go with --restore");
    }
    wrong(
        &["--restore", &columns, "--strikes", "--channels"],
        "--strikes does not go with",
    );
    for option in ["--records", "--columns", "--restore"] {
        wrong(&[option, "-"], "needs a file's name, not -");
        wrong(&[option], "needs a value");
    }
    wrong(&["--restore", &folder.path("none")], "No such file");
    assert!(!fs::exists(&other).unwrap());
}

#[test]
fn records_and_columns_are_never_written_over_a_file_that_is_read() {
    let folder = Folder::new("over-read");
    let (tune, state, columns) = (
        folder.write("tune.s3m", &held()),
        folder.path("state"),
        folder.path("columns"),
    );
    taken(&["--rows", "2", "--save", &state, "--columns", &columns, &tune]);
    for (read, what, words) in [
        (&tune, "tune", &[&tune[..]][..]),
        (&state, "state", &["--from", &state, &tune]),
        (&columns, "stored sheet", &["--restore", &columns]),
    ] {
        let before = fs::read(read).unwrap();
        let (soft, hard) = (folder.path("soft"), folder.path("hard"));
        symlink(read, &soft).unwrap();
        fs::hard_link(read, &hard).unwrap();
        for name in [read, &soft, &hard] {
            wrong(
                &[&["--records", name], words].concat(),
                &format!("--records names the {what} that is read"),
            );
            if what != "stored sheet" {
                wrong(
                    &[&["--columns", name], words].concat(),
                    &format!("--columns names the {what} that is read"),
                );
            }
        }
        assert_eq!(fs::read(read).unwrap(), before);
        fs::remove_file(soft).unwrap();
        fs::remove_file(hard).unwrap();
    }
}

#[test]
fn a_tune_on_standard_input_is_not_read_by_restore() {
    let folder = Folder::new("input");
    let (columns, records) = (folder.path("columns"), folder.write("records", b"other"));
    taken(&["--columns", &columns, WORKED]);
    let from_input = |words: &[&str]| {
        let input = fs::File::open(&records).unwrap();
        Command::new(LOMQASHE).args(words).stdin(input).output().unwrap()
    };
    assert_eq!(from_input(&["--records", &records]).status.code(), Some(2));
    assert_eq!(fs::read(&records).unwrap(), b"other");
    let output = from_input(&["--restore", &columns, "--records", &records]);
    assert_eq!(output.status.code(), Some(0));
    assert_eq!(fs::metadata(&records).unwrap().len(), 3 * 536);
}

#[test]
fn no_two_files_are_written_into_one() {
    let folder = Folder::new("into-one");
    let one = folder.path("one");
    fs::create_dir(folder.path("inner")).unwrap();
    let options = ["--svg", "--save", "--records", "--columns"];
    let pairs = (0..4).flat_map(|i| (0..i).map(move |k| (options[k], options[i])));
    for (first, second) in pairs {
        let why = format!("{first} and {second} name one file");
        // Another name of a file that is not there yet, too.
        for other in [&one, &folder.path("inner/../one")] {
            wrong(&[first, &one, second, other, WORKED], &why);
            wrong(&[second, other, first, &one, WORKED], &why);
        }
        assert!(!fs::exists(&one).unwrap());
    }
}

#[test]
fn a_file_that_cannot_be_written_is_told() {
    let folder = Folder::new("no-folder");
    let (columns, none) = (folder.path("columns"), folder.path("none/file"));
    for option in ["--records", "--columns"] {
        for (name, why) in [(&none[..], "No such file"), ("/dev/full", "No space left")] {
            let output = run(&[option, name, WORKED], b"");
            assert_eq!(output.status.code(), Some(2));
            assert_eq!(text(&output.stdout), SHEET);
            assert!(text(&output.stderr).contains(why));
        }
    }
    taken(&["--columns", &columns, WORKED]);
    let output = run(&["--restore", &columns, "--records", "/dev/full"], b"");
    assert_eq!(output.status.code(), Some(2));
    assert!(text(&output.stdout).ends_with("\nrestored,3,18000\n"));
}
