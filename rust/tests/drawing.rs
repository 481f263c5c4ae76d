//! The drawing, read back: what it shows, its labels and its size.

mod common;

use common::{B, C, Folder, SHEET, WORKED, file, note, put, run, text};
use std::fs;

/// The drawing of a file, with some options.
fn drawing(folder: &Folder, tune: &str, options: &[&str]) -> String {
    let svg = folder.path("book.svg");
    let output = run(&[options, &["--svg", &svg, tune]].concat(), b"");
    assert_eq!(output.status.code(), Some(0), "{}", text(&output.stderr));
    fs::read_to_string(svg).unwrap()
}

/// A number behind a word.
fn after(line: &str, word: &str) -> f64 {
    let from = line.find(word).unwrap_or_else(|| panic!("{word} in {line}")) + word.len();
    let number: String = line[from..]
        .chars()
        .take_while(|c| c.is_ascii_digit() || *c == '.')
        .collect();
    number.parse().unwrap()
}

/// The labels of each strip that have a class: where they start, and their texts.
fn labels(drawing: &str, class: &str) -> Vec<Vec<(f64, String)>> {
    let strips = drawing.split("<g transform=").skip(2);
    let labels = strips.map(|strip| {
        let lines = strip
            .lines()
            .filter(|line| line.contains(&format!("<text class=\"{class}\"")));
        lines
            .map(|line| {
                let text = line.split(['<', '>']).nth(2).unwrap();
                (after(line, " x=\""), text.to_string())
            })
            .collect()
    });
    labels.collect()
}

/// Labels that come one after the other have room, with letters of 0.6 times the font's size.
fn apart(drawing: &str, class: &str, size: f64) {
    for strip in labels(drawing, class) {
        for pair in strip.windows(2) {
            let end = pair[0].0 + pair[0].1.len() as f64 * size * 0.6;
            assert!(end < pair[1].0, "{pair:?}");
        }
    }
}

#[test]
fn the_drawing_has_a_slot_a_hold_and_the_seams() {
    let folder = Folder::new("slot");
    let svg = folder.path("book.svg");
    let output = run(&["--sections", "1", "--svg", &svg, WORKED], b"");
    assert_eq!(text(&output.stdout), SHEET);
    let drawing = fs::read_to_string(&svg).unwrap();
    let count = |what: &str| drawing.matches(what).count();
    // One of each in the legend.
    assert_eq!(count("class=\"slot\""), 1 + 1);
    assert_eq!(count("class=\"held\""), 1 + 1);
    assert_eq!(count("class=\"seam\""), 1 + 2);
    assert!(drawing.contains("3 rows, 1 strikes, 3 section(s), 0.018 m of card, drawn to its end"));
}

#[test]
fn every_sixteenth_row_has_its_number() {
    let folder = Folder::new("numbers");
    // 64 rows of 7.2 mm, then 21 of which the first is row 10.
    let tune = folder.write(
        "tune.s3m",
        &file(&[0, 1], &[&[put(63, 0, C, 0x10)], &[put(30, 0, B, 9)]]),
    );
    let numbers = labels(&drawing(&folder, &tune, &[]), "number");
    let texts = |strip: &[(f64, String)]| strip.iter().map(|(_, text)| text.clone()).collect::<Vec<_>>();
    // Strips break at the first row behind 600 mm: 84 rows have 604.8 mm.
    assert_eq!(numbers.len(), 2);
    assert_eq!(texts(&numbers[0]), ["0", "16", "32", "48", "10", "16"]);
    assert_eq!(texts(&numbers[1]), ["30"]);
    assert!((numbers[0][1].0 - 16.0 * 7.2).abs() < 1.0);
}

#[test]
fn labels_at_the_start_of_a_strip_do_not_overlap() {
    let folder = Folder::new("start");
    // The second strip begins at row 20 of order 1, whose last row is 21: the next order begins two rows behind the start.
    let tune = folder.write("tune.s3m", &file(&[0, 1, 0], &[&[], &[put(21, 0, C, 0)]]));
    let drawing = drawing(&folder, &tune, &["--sections", "1"]);
    let orders = labels(&drawing, "order");
    assert_eq!(orders[0].len(), 2);
    assert_eq!(orders[1][0].1, "order 2 pattern 0");
    // A seam's line begins at the card, below the orders' names.
    let seams: Vec<&str> = drawing
        .lines()
        .filter(|line| line.starts_with("<path class=\"seam\""))
        .collect();
    assert!(seams.len() > 80 && seams.iter().all(|line| line.contains(" 6v")));
    for (class, size) in [("order", 4.0), ("number", 2.2), ("seam-name", 4.0)] {
        apart(&drawing, class, size);
    }
}

#[test]
fn orders_of_few_rows_have_short_names() {
    let folder = Folder::new("short");
    let tune = folder.write("tune.s3m", &file(&[0; 40], &[&[put(2, 0, C, 0)]]));
    let drawing = drawing(&folder, &tune, &["--sections", "1"]);
    let orders = labels(&drawing, "order");
    assert!(orders[0].iter().any(|(_, text)| text == "o1 p0"));
    apart(&drawing, "order", 4.0);
    apart(&drawing, "seam-name", 4.0);
}

#[test]
fn a_long_book_stands_in_columns_that_programs_show() {
    let folder = Folder::new("columns");
    let tune = folder.write("endless.s3m", &file(&[0], &[&[note(0, 0), put(63, 0, B, 0)]]));
    let drawing = drawing(&folder, &tune, &[]);
    let (width, height) = (after(&drawing, "width=\""), after(&drawing, "height=\""));
    assert!(width < 8_600.0 && height < 8_600.0 && width < 2.0 * height && height < 2.0 * width);
    // 72 m in strips of 84 rows, no two at one place and all within the drawing.
    let places: Vec<(f64, f64)> = drawing
        .split("<g transform=\"")
        .skip(2)
        .map(|strip| (after(strip, "translate("), after(strip, " ")))
        .collect();
    assert_eq!(places.len(), 10_000_usize.div_ceil(84));
    for (i, (x, y)) in places.iter().enumerate() {
        assert!(x + 84.0 * 7.2 < width && y + 121.0 < height);
        assert!(
            places[..i]
                .iter()
                .all(|(other_x, other_y)| (x - other_x).abs() > 604.8 || (y - other_y).abs() >= 121.0)
        );
    }
}

#[test]
fn a_drawing_that_no_program_shows_is_refused_with_advice() {
    let folder = Folder::new("large");
    let tune = folder.write("endless.s3m", &file(&[0], &[&[put(0, 0, B, 0)]]));
    let svg = folder.path("book.svg");
    let output = run(&["--rows", "200000", "--svg", &svg, &tune], b"");
    assert_eq!(output.status.code(), Some(2));
    assert!(text(&output.stdout).ends_with("\nmore,200000,1440000000\n"));
    assert!(text(&output.stderr).contains("draw fewer rows with --rows"));
    assert!(!fs::exists(&svg).unwrap());
}

#[test]
fn a_tune_without_rows_and_an_odd_name_are_drawn() {
    let folder = Folder::new("odd");
    let tune = folder.write("a<b>&\u{1}.s3m", &file(&[0xFF], &[]));
    let drawing = drawing(&folder, &tune, &[]);
    assert!(drawing.contains("a&lt;b&gt;&amp;\u{FFFD}.s3m") && drawing.contains("0 rows, 0 strikes, 0 section(s)"));
    assert!(drawing.ends_with("</svg>\n"));
}

#[test]
fn sections_of_a_later_run_are_numbered_on() {
    let folder = Folder::new("later");
    let tune = folder.write("tune.s3m", &file(&[0], &[&[put(63, 0, B, 9)]]));
    let (state, svg) = (folder.path("state"), folder.path("book.svg"));
    run(&["--rows", "20", "--save", &state, &tune], b"");
    let words = [
        "--rows",
        "30",
        "--sections",
        "10",
        "--from",
        &state,
        "--svg",
        &svg,
        &tune,
    ];
    assert_eq!(run(&words, b"").status.code(), Some(0));
    let drawing = fs::read_to_string(svg).unwrap();
    // Rows 20 to 49 are sections 3, 4 and 5.
    let names: Vec<String> = labels(&drawing, "seam-name")
        .concat()
        .into_iter()
        .map(|(_, text)| text)
        .collect();
    assert_eq!(names, ["section 4", "section 5"]);
    assert!(drawing.contains("30 rows, 0 strikes, 3 section(s), 0.216 m of card, drawn not to its end"));
    assert!(drawing.contains(">0.144 m</text>"));
}
