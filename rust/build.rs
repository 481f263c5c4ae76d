//! Links the archive that `./prove staticlib lomqashe` writes: the one in the folder that `LOMQASHE_ARCHIVE` names, or beside
//! this file, or else in the repository's target/staticlib.

use std::ffi::OsString;
use std::os::unix::process::parent_id;
use std::path::{Path, PathBuf};
use std::{env, fs, process};

const ARCHIVE: &str = "liblomqashe.a";

fn main() {
    println!("cargo::rerun-if-env-changed=LOMQASHE_ARCHIVE");
    let named = env::var_os("LOMQASHE_ARCHIVE").filter(|name| !name.is_empty());
    let folder = match named {
        Some(name) => named_folder(name),
        None => own_folder(),
    };
    let archive = folder.join(ARCHIVE);
    println!("cargo::rerun-if-changed={}", archive.display());
    println!("cargo::rustc-link-search=native={}", folder.display());
    println!("cargo::rustc-link-lib=static=lomqashe");
}

/// The folder that was named, from where the user stands: cargo runs this program elsewhere, but not itself.
fn named_folder(name: OsString) -> PathBuf {
    let mut folder = PathBuf::from(name);
    if folder.is_relative() {
        println!("cargo::rerun-if-env-changed=PWD");
        let Ok(stands) = fs::read_link(format!("/proc/{}/cwd", parent_id())) else {
            stop(&format!(
                "LOMQASHE_ARCHIVE must be a whole path here, not {}",
                folder.display()
            ));
        };
        folder = stands.join(folder);
    }
    if !folder.join(ARCHIVE).is_file() {
        stop(&format!(
            "LOMQASHE_ARCHIVE names {}, which is no folder with {ARCHIVE}",
            folder.display()
        ));
    }
    folder
}

fn own_folder() -> PathBuf {
    let home = PathBuf::from(env::var_os("CARGO_MANIFEST_DIR").expect("cargo sets it"));
    if home.join(ARCHIVE).is_file() {
        return home;
    }
    let folder = home.parent().unwrap_or(Path::new("/")).join("target/staticlib");
    if !folder.join(ARCHIVE).is_file() {
        stop(&format!(
            "{ARCHIVE} is neither in {} nor in {}: run `./prove staticlib lomqashe` at the repository's root, or name a folder \
             that has it in LOMQASHE_ARCHIVE",
            home.display(),
            folder.display()
        ));
    }
    folder
}

fn stop(why: &str) -> ! {
    eprintln!("lomqashe: {why}");
    process::exit(1);
}
