//! Makes the list and the expected output of the program `replay`, or makes them anew and compares.

use crate::calls::Function;
use crate::list::{self, Case};
use crate::plan;
use std::fs;
use std::path::Path;

pub const LIST: &str = "data/calls";
const OUTPUT: &str = "stdout";

/// The two files by name, with their bytes.
fn files() -> [(&'static str, Vec<u8>); 2] {
    let cases = plan::recorded();
    [(LIST, list::encode(&cases)), (OUTPUT, expected(&cases).into_bytes())]
}

/// What `replay` prints where nothing differs.
fn expected(cases: &[Case]) -> String {
    let count = |function| cases.iter().filter(|case| case.call.function == function).count();
    let line = |function: Function| format!("{}: {} cases, 0 differences\n", function.name(), count(function));
    Function::ALL.map(line).concat() + "misread: 0\n"
}

/// Writes the files into `dir`.
pub fn record(dir: &Path) -> Result<String, String> {
    fs::create_dir_all(dir.join("data")).map_err(|why| format!("{}: {why}", dir.display()))?;
    let mut out = String::new();
    for (name, bytes) in files() {
        fs::write(dir.join(name), &bytes).map_err(|why| format!("{name}: {why}"))?;
        out += &format!("record: {name}, {} bytes\n", bytes.len());
    }
    Ok(out)
}

/// Compares the files in `dir` with those made anew, every byte.
pub fn compare(dir: &Path) -> Result<String, String> {
    let mut out = String::new();
    for (name, bytes) in files() {
        let there = fs::read(dir.join(name)).map_err(|why| format!("{name}: {why}"))?;
        if there != bytes {
            let equal = there.iter().zip(&bytes).take_while(|(a, b)| a == b).count();
            return Err(format!("compare: {name} differs from byte {equal} on"));
        }
        out += &format!("compare: {name} equal, {} bytes\n", bytes.len());
    }
    Ok(out)
}

/// The cases of the list in `dir`.
pub fn load(dir: &Path) -> Result<Vec<Case>, String> {
    let bytes = fs::read(dir.join(LIST)).map_err(|why| format!("{LIST}: {why}"))?;
    list::decode(&bytes).map_err(|why| format!("{LIST}: {why}"))
}
