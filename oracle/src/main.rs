//! The commands of the oracle.

use oracle::{cover, factors, readers, record, sheet};
use std::io::{self, Read, Write};
use std::path::Path;
use std::process::ExitCode;

const USAGE: &str = "usage: oracle/run sheet < FILE
       oracle/run sheets PROGRAM [SEED TUNES]
       oracle/run readers < FILE
       oracle/run record DIR | compare DIR | cover DIR
       oracle/run powf";

fn main() -> ExitCode {
    let args: Vec<String> = std::env::args().skip(1).collect();
    let words: Vec<&str> = args.iter().map(String::as_str).collect();
    let print = |text: String| io::stdout().write_all(text.as_bytes()).map_err(|why| why.to_string());
    match answer(&words).and_then(print) {
        Ok(()) => ExitCode::SUCCESS,
        Err(why) => {
            eprintln!("{why}");
            ExitCode::FAILURE
        }
    }
}

fn answer(words: &[&str]) -> Result<String, String> {
    match *words {
        ["sheet"] => Ok(sheet::sheet(&standard_input()?)),
        ["sheets", ref words @ ..] => sheet::hold(words),
        ["readers"] => Ok(readers::report(&standard_input()?)),
        ["record", dir] => record::record(Path::new(dir)),
        ["compare", dir] => record::compare(Path::new(dir)),
        ["cover", dir] => cover::report(Path::new(dir)),
        ["powf"] => Ok(factors::report()),
        _ => Err(USAGE.to_string()),
    }
}

fn standard_input() -> Result<Vec<u8>, String> {
    let mut file = Vec::new();
    let read = io::stdin().read_to_end(&mut file);
    read.map(|_| file).map_err(|why| why.to_string())
}
