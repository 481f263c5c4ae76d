//! Times the library beside the original, on the same tunes in one run: walking rows, and reading files; its lists of
//! strikes beside a sort, its answer whether a tune is closed beside a loop, and its punch head and its columns beside plain
//! Rust. README.md says what each column is.

mod clock;
mod closed;
mod columns;
mod count;
mod head;
mod path;
mod reading;
mod records;
mod rows;
mod strikes;
mod tunes;

use std::process::ExitCode;
use tunes::Kind;

const USAGE: &str = "usage: bench/run [rows | sections | strikes | closed | head | columns | reading]";

fn main() -> ExitCode {
    let words: Vec<String> = std::env::args().skip(1).collect();
    let words: Vec<&str> = words.iter().map(String::as_str).collect();
    let fine = match words[..] {
        [] => {
            println!("best of {} rounds of 10 ms or more", clock::ROUNDS);
            let same = rows::table();
            println!();
            rows::sections();
            println!();
            let listed = strikes::table();
            println!();
            let closed = closed::table();
            println!();
            let struck = head::table();
            println!();
            let stored = columns::table();
            println!();
            reading::table();
            same && listed && closed && struck && stored
        }
        ["rows"] => rows::table(),
        ["sections"] => {
            rows::sections();
            true
        }
        ["strikes"] => strikes::table(),
        ["closed"] => closed::table(),
        ["head"] => head::table(),
        ["columns"] => columns::table(),
        ["reading"] => {
            reading::table();
            true
        }
        ["count", name, work @ ("strikes" | "sort")] => count::strikes(name, work == "strikes"),
        ["count", name, work @ ("closed" | "loop")] => count::closed(name, work == "closed"),
        ["count", name, work @ ("head" | "plain")] => count::head(name, work == "head"),
        ["count", call @ ("store" | "restore"), way] => count::columns(call == "store", way),
        ["count", kind, work] => Kind::named(kind).is_some_and(|kind| count::run(kind, work)),
        _ => {
            eprintln!("{USAGE}");
            return ExitCode::from(2);
        }
    };
    if fine { ExitCode::SUCCESS } else { ExitCode::FAILURE }
}
