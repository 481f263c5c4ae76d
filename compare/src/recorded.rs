//! The recorded list: the library gives its answers.

use crate::both::compared;
use crate::library;
use oracle::record;
use std::path::Path;

const DIR: &str = concat!(env!("CARGO_MANIFEST_DIR"), "/../crates/replay");

pub fn compare() -> Result<String, String> {
    let cases = record::load(Path::new(DIR))?;
    for (i, case) in cases.iter().enumerate() {
        compared(&case.call, &library::answer(&case.call), &case.answer).map_err(|why| format!("case {i}: {why}"))?;
    }
    Ok(format!("{} calls", cases.len()))
}
