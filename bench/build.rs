//! Links the path alone beside the library: what `./prove staticlib path_alone` writes.

use std::path::PathBuf;
use std::{env, process};

fn main() {
    let home = PathBuf::from(env::var("CARGO_MANIFEST_DIR").expect("cargo sets it"));
    let folder = home.join("../target/staticlib");
    let archive = folder.join("libpath_alone.a");
    println!("cargo::rerun-if-changed={}", archive.display());
    if !archive.is_file() {
        eprintln!(
            "bench: {} is not there; run `./prove staticlib path_alone` at the repository's root",
            archive.display()
        );
        process::exit(1);
    }
    println!("cargo::rustc-link-search=native={}", folder.display());
    println!("cargo::rustc-link-lib=static=path_alone");
}
