//! Closed tunes: what closes one and what does not, what is named as its breach, how long one is, and the command's option.

mod common;

use common::{B, C, Folder, Put, S, WORKED, file, note, put, run, text};
use lomqashe::{Breach, CellPlace, Opening, PATTERN_BYTES, Tune};

/// A tune of so many empty patterns.
fn empty(orders: &[u8], patterns: usize) -> Tune {
    Tune {
        orders: orders.to_vec(),
        samples: vec![],
        cells: [255, 0, 255, 0, 0].repeat(patterns * 2_048),
        opening: Opening::default(),
    }
}

/// The same with these cells in one pattern.
fn tune(orders: &[u8], patterns: usize, pattern: usize, cells: &[Put]) -> Tune {
    let mut tune = empty(orders, patterns);
    for cell in cells {
        let at = pattern * PATTERN_BYTES + cell.row * 160 + usize::from(cell.channel) * 5;
        tune.cells[at + 3..at + 5].copy_from_slice(&[cell.command, cell.info]);
    }
    tune
}

fn cell(pattern: u8, row: u8, channel: u8) -> CellPlace {
    CellPlace { pattern, row, channel }
}

/// Both calls and the finder say so: None is a closed tune.
fn assert_breach(tune: &Tune, expected: Option<Breach>) {
    assert_eq!(tune.first_breach(), expected);
    assert_eq!(tune.is_closed(), Ok(expected.is_none()), "{expected:?}");
    match (tune.open_closed(), expected) {
        (Ok(state), None) => assert_eq!(state, tune.open().unwrap()),
        (Err(refusal), Some(_)) => assert_eq!(refusal.number(), 14),
        (given, _) => panic!("{given:?}, but {expected:?}"),
    }
}

/// S01, B01 behind its place 0, a loop and an SB0: closed, and by the least change in one cell not so.
#[test]
fn each_clause_is_broken_alone_by_a_small_change() {
    let cells = [put(2, 7, S, 1), put(3, 7, B, 1), put(4, 7, S, 0xB2), put(5, 7, S, 0xB0)];
    let closed = |at: usize, info| {
        let mut cells = cells;
        cells[at].info = info;
        tune(&[0, 1], 2, 0, &cells)
    };
    assert_breach(&closed(0, 1), None);
    assert_breach(&closed(0, 0), Some(Breach::Recall(cell(0, 2, 7))));
    let jump = Breach::JumpBack {
        cell: cell(0, 3, 7),
        target: 0,
        order: 0,
    };
    assert_breach(&closed(1, 0), Some(jump));
    let (pattern, rows) = (0, [4, 5]);
    assert_breach(&closed(3, 0xB1), Some(Breach::TwoLoops { pattern, rows }));
}

/// What a B to this place in pattern 1 breaks: the first place at or behind it that names the pattern.
fn assert_jump(orders: &[u8], target: u8, order: Option<u8>) {
    let breach = order.map(|order| Breach::JumpBack {
        cell: cell(1, 63, 31),
        target,
        order,
    });
    assert_breach(&tune(orders, 2, 1, &[put(63, 31, B, target)]), breach);
}

#[test]
fn a_jump_goes_behind_every_place_of_its_pattern() {
    // Before its place, to it, to the next one and past the orders.
    assert_jump(&[0, 1, 0], 0, Some(1));
    assert_jump(&[0, 1, 0], 1, Some(1));
    assert_jump(&[0, 1, 0], 2, None);
    assert_jump(&[0, 1, 0], 255, None);
    // Of two places only the later one is passed, or both, or none.
    assert_jump(&[1, 0, 0, 1], 0, Some(0));
    assert_jump(&[1, 0, 0, 1], 1, Some(3));
    assert_jump(&[1, 0, 0, 1], 3, Some(3));
    assert_jump(&[1, 0, 0, 1], 4, None);
    // A place behind the end, which no row reaches.
    assert_jump(&[0, 0xFF, 1], 1, Some(2));
    assert_jump(&[0, 0xFF, 1], 3, None);
    // Marks and a missing pattern name none.
    assert_jump(&[0xFE, 0xFF, 2, 101], 0, None);
}

#[test]
fn the_last_place_is_254() {
    let orders = [vec![0; 254], vec![1]].concat();
    assert_jump(&orders, 253, Some(254));
    assert_jump(&orders, 254, Some(254));
    assert_jump(&orders, 255, None);
    assert_jump(&[1; 255], 100, Some(100));
    assert_jump(&[1; 255], 255, None);
}

fn assert_loops(cells: &[Put], rows: Option<[u8; 2]>) {
    let breach = rows.map(|rows| Breach::TwoLoops { pattern: 1, rows });
    // Whether an order names the pattern or not.
    for orders in [&[0, 1][..], &[0]] {
        assert_breach(&tune(orders, 2, 1, cells), breach);
    }
}

#[test]
fn one_row_of_a_pattern_loops() {
    assert_loops(&[put(3, 0, S, 0xB2)], None);
    assert_loops(&[put(0, 0, S, 0xB1), put(63, 31, S, 0xBF)], Some([0, 63]));
    assert_loops(&[put(3, 0, S, 0xB2), put(9, 0, S, 0xB0)], None);
    assert_loops(&[put(3, 0, S, 0xB2), put(3, 1, S, 0xB2)], None);
    let three = [7, 20, 33].map(|row| put(row, 0, S, 0xB1));
    assert_loops(&three, Some([7, 20]));
    // Other S infos, and the loop's in other commands.
    let others = [
        put(3, 0, S, 0xB2),
        put(4, 0, S, 0xA2),
        put(5, 0, S, 0xC2),
        put(6, 0, 18, 0xB2),
        put(7, 0, 20, 0xB2),
    ];
    assert_loops(&others, None);
}

#[test]
fn the_last_sb_of_a_row_counts() {
    let beside = put(9, 5, S, 0xB2);
    assert_loops(&[beside, put(3, 4, S, 0xB2), put(3, 5, S, 0xB0)], None);
    assert_loops(&[beside, put(3, 4, S, 0xB0), put(3, 5, S, 0xB2)], Some([3, 9]));
    // What is no SB does not count.
    assert_loops(&[beside, put(3, 5, S, 0xB2), put(3, 6, S, 0xE0)], Some([3, 9]));
}

#[test]
fn a_loop_in_each_pattern_is_closed() {
    let mut tune = tune(&[0, 1], 2, 0, &[put(3, 0, S, 0xB2)]);
    let (first, second) = tune.cells.split_at_mut(PATTERN_BYTES);
    second.copy_from_slice(first);
    assert_breach(&tune, None);
}

#[test]
fn patterns_that_no_order_names_count_but_have_no_place() {
    assert_breach(
        &tune(&[0], 3, 2, &[put(8, 8, S, 0)]),
        Some(Breach::Recall(cell(2, 8, 8))),
    );
    for target in [0, 1, 255] {
        assert_breach(&tune(&[0], 3, 2, &[put(8, 8, B, target)]), None);
    }
}

#[test]
fn the_first_breach_goes_by_clause_then_by_cell() {
    let loops = [put(0, 0, S, 0xB1), put(1, 0, S, 0xB1)];
    let jumps = [put(2, 9, B, 1), put(2, 8, B, 0), put(5, 0, B, 0)];
    let recalls = [put(7, 1, S, 0), put(6, 31, S, 0)];
    let jump = Breach::JumpBack {
        cell: cell(1, 2, 8),
        target: 0,
        order: 1,
    };
    let with = |cells: &[&[Put]]| tune(&[0, 1], 2, 1, &cells.concat()).first_breach();
    assert_eq!(with(&[&loops, &jumps, &recalls]), Some(Breach::Recall(cell(1, 6, 31))));
    assert_eq!(with(&[&loops, &jumps]), Some(jump));
    assert_eq!(
        with(&[&loops]),
        Some(Breach::TwoLoops {
            pattern: 1,
            rows: [0, 1]
        })
    );
    let mut both = tune(&[0, 1], 2, 1, &recalls);
    both.cells[3..5].copy_from_slice(&[S, 0]);
    assert_eq!(both.first_breach(), Some(Breach::Recall(cell(0, 0, 0))));
}

#[test]
fn small_and_large_tables_are_asked() {
    assert_breach(&empty(&[0xFF], 0), None);
    let most = |cells: &[Put]| Tune {
        samples: vec![0; 99 * 20],
        ..tune(&[99; 255], 100, 99, cells)
    };
    assert_breach(&most(&[]), None);
    assert_breach(&most(&[put(63, 31, S, 0)]), Some(Breach::Recall(cell(99, 63, 31))));
    for tune in [empty(&[], 1), empty(&[0; 256], 1), empty(&[0], 101)] {
        assert_eq!(tune.is_closed().unwrap_err().number(), 9);
        assert_eq!(tune.open_closed().unwrap_err().number(), 9);
    }
}

#[test]
fn rule_10_comes_before_rule_14() {
    let mut open = tune(&[0], 1, 0, &[put(0, 0, S, 0)]);
    open.opening.speed = 0;
    assert_eq!(open.open_closed().unwrap_err().number(), 10);
    open.orders.clear();
    assert_eq!(open.open_closed().unwrap_err().number(), 9);
}

/// Each row is held 15 times, and the last one goes back to the first 15 times.
#[test]
fn a_closed_tune_ends_within_16384_rows_an_order() {
    let held = (0..64).map(|row| put(row, 4, S, 0xEF));
    let cells: Vec<Put> = held.chain([put(63, 5, S, 0xBF)]).collect();
    for orders in [1, 2] {
        let tune = tune(&vec![0; orders], 1, 0, &cells);
        assert_breach(&tune, None);
        let rows = tune.rows(1_000).unwrap().take(16_384 * orders + 1).count();
        assert_eq!(rows, 16_159 * orders);
    }
}

#[test]
fn a_breach_is_told_in_words() {
    let told = |cells: &[Put]| tune(&[1, 0, 0], 2, 0, cells).first_breach().unwrap().to_string();
    assert_eq!(told(&[put(5, 31, S, 0)]), "S00 in pattern 0, row 5, channel 31");
    assert_eq!(
        told(&[put(5, 31, B, 2)]),
        "B02 in pattern 0, row 5, channel 31 jumps to order 2, and order 2 names that pattern"
    );
    assert_eq!(
        told(&[put(5, 31, S, 0xB1), put(60, 0, S, 0xB1)]),
        "rows 5 and 60 of pattern 0 both loop (SBx)"
    );
}

#[test]
fn the_command_prints_a_closed_tune_as_ever() {
    let folder = Folder::new("closed");
    let state = folder.path("state");
    let plain = run(&[WORKED], b"");
    for words in [
        &["--closed"][..],
        &["--closed", "--once"],
        &["--closed", "--closed", "--sections", "1"],
    ] {
        let output = run(&[words, &[WORKED]].concat(), b"");
        assert_eq!(text(&output.stdout), text(&plain.stdout), "{words:?}");
        assert_eq!((output.status.code(), text(&output.stderr)), (Some(0), ""));
    }
    run(&["--closed", "--rows", "1", "--save", &state, WORKED], b"");
    let output = run(&["--closed", "--from", &state, WORKED], b"");
    assert!(text(&output.stdout).ends_with("\nend,3,18000\n"));
}

/// The command refuses a tune of these cells and says why; without the option it prints it.
fn assert_refused(cells: &[Put], why: &str) {
    let tune = file(&[0], &[cells]);
    let title = text(&run(&["--rows", "0"], &tune).stdout)
        .lines()
        .next()
        .unwrap()
        .to_string();
    for words in [&["--closed"][..], &["--closed", "--rows", "0"]] {
        let output = run(words, &tune);
        assert_eq!(output.status.code(), Some(1));
        assert_eq!(text(&output.stdout), format!("{title}\nrefused,14\n"));
        assert_eq!(
            text(&output.stderr),
            format!("lomqashe: refused: tune not closed (rule 14): {why}\n")
        );
    }
    assert_eq!(run(&["--rows", "100"], &tune).status.code(), Some(0));
}

#[test]
fn the_command_refuses_a_tune_that_is_not_closed_and_names_its_breach() {
    assert_refused(&[note(0, 0), put(3, 1, S, 0)], "S00 in pattern 0, row 3, channel 1");
    assert_refused(
        &[note(0, 0), put(3, 0, B, 0)],
        "B00 in pattern 0, row 3, channel 0 jumps to order 0, and order 0 names that pattern",
    );
    assert_refused(
        &[put(3, 0, S, 0xB1), put(9, 2, S, 0xB1), put(10, 0, C, 0)],
        "rows 3 and 9 of pattern 0 both loop (SBx)",
    );
}

#[test]
fn the_command_names_a_rule_before_14_alone() {
    let output = run(&["--closed"], b"no tune");
    assert_eq!(output.status.code(), Some(1));
    assert_eq!(
        text(&output.stderr),
        "lomqashe: refused: the file is shorter than 96 bytes (rule 1)\n"
    );
}

#[test]
fn the_command_asks_a_tune_that_goes_on_too() {
    let folder = Folder::new("closed-from");
    let (tune, state) = (
        folder.write("endless.s3m", &file(&[0], &[&[put(3, 0, B, 0)]])),
        folder.path("state"),
    );
    let saved = folder.path("saved");
    run(&["--rows", "2", "--save", &state, &tune], b"");
    let output = run(&["--closed", "--from", &state, "--save", &saved, &tune], b"");
    assert_eq!(output.status.code(), Some(1));
    assert!(text(&output.stdout).ends_with("\nrefused,14\n") && !std::fs::exists(&saved).unwrap());
}
