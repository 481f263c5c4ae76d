//! The files that a command line names.

use super::Trouble;
use super::args::Args;
use lomqashe::{MOST_ROWS, RECORD_BYTES, State};
use std::ffi::OsString;
use std::fs::{self, File, Metadata};
use std::io::{self, Read};
use std::os::fd::AsFd;
use std::os::unix::fs::MetadataExt;
use std::path::Path;

/// The tune's bytes.
pub fn read_tune(file: Option<&Path>) -> Result<Vec<u8>, Trouble> {
    match file {
        Some(path) => fs::read(path).map_err(|why| Trouble::file(path, why)),
        None => {
            let mut bytes = Vec::new();
            let read = io::stdin().read_to_end(&mut bytes);
            read.map_err(|why| Trouble::file("standard input", why))?;
            Ok(bytes)
        }
    }
}

/// The bytes of a stored file, but at most one more than the most records have: it is then refused whatever its length.
pub fn read_columns(path: &Path) -> Result<Vec<u8>, Trouble> {
    const MOST_BYTES: u64 = MOST_ROWS as u64 * RECORD_BYTES as u64;
    let mut bytes = Vec::new();
    let read = File::open(path).and_then(|file| file.take(MOST_BYTES + 1).read_to_end(&mut bytes));
    read.map_err(|why| Trouble::file(path, why))?;
    Ok(bytes)
}

/// Nothing is written over a file that is read, whatever its name there, nor two things into one file. A state may be saved
/// over the one that was gone on from.
pub fn keep_apart(args: &Args) -> Result<(), Trouble> {
    let read = files_read(args);
    let written = files_written(args);
    for (i, (option, file)) in written.iter().enumerate() {
        for (name, other) in &read {
            let is_allowed = *option == SAVE && *name == STATE_READ;
            if file == other && !is_allowed {
                return Err(Trouble::Usage(format!("{option} names the {name} that is read")));
            }
        }
        if let Some((earlier, _)) = written[..i].iter().find(|(_, other)| file == other) {
            return Err(Trouble::Usage(format!("{earlier} and {option} name one file")));
        }
    }
    Ok(())
}

const SAVE: &str = "--save";
const STATE_READ: &str = "state";

/// The files that are read, by what they have.
fn files_read(args: &Args) -> Vec<(&'static str, FileId)> {
    let stored = args.restore.as_deref().and_then(file_at);
    let state = args.from.as_deref().and_then(file_at);
    let tune = match (&args.restore, &args.file) {
        (Some(_), _) => None,
        (None, Some(path)) => file_at(path),
        (None, None) => standard_input().ok().and_then(|found| FileId::of(&found)),
    };
    let files = [("stored sheet", stored), ("tune", tune), (STATE_READ, state)];
    files
        .into_iter()
        .filter_map(|(name, file)| Some((name, file?)))
        .collect()
}

/// The files that are written, by the options that name them.
fn files_written(args: &Args) -> Vec<(&'static str, FileId)> {
    let files = [
        ("--svg", &args.svg),
        (SAVE, &args.save),
        ("--records", &args.records),
        ("--columns", &args.columns),
    ];
    files
        .into_iter()
        .filter_map(|(option, path)| Some((option, file_at(path.as_deref()?)?)))
        .collect()
}

fn standard_input() -> io::Result<Metadata> {
    File::from(io::stdin().as_fd().try_clone_to_owned()?).metadata()
}

/// What makes two names those of one file: its device and inode, or where there is no file yet those of its folder and its
/// name there.
#[derive(PartialEq)]
struct FileId {
    device: u64,
    inode: u64,
    name: Option<OsString>,
}

impl FileId {
    /// Of a regular file.
    fn of(found: &Metadata) -> Option<FileId> {
        found.is_file().then(|| FileId::at(found, None))
    }

    fn at(found: &Metadata, name: Option<OsString>) -> FileId {
        FileId {
            device: found.dev(),
            inode: found.ino(),
            name,
        }
    }
}

fn file_at(path: &Path) -> Option<FileId> {
    if let Ok(found) = fs::metadata(path) {
        return FileId::of(&found);
    }
    let folder = path.parent()?;
    let found = fs::metadata(Path::new(".").join(folder)).ok()?;
    Some(FileId::at(&found, Some(path.file_name()?.to_owned())))
}

/// What `--save` writes: these letters, the rows so far as 8 bytes with the low one first, and the state.
const MARK: &[u8; 16] = b"lomqashe state 1";
const ROWS: usize = MARK.len();
const STATE: usize = ROWS + 8;
const SIZE: usize = STATE + State::BYTES;

/// A state and how many rows came before it.
pub struct Saved {
    pub rows: u64,
    pub state: State,
}

impl Saved {
    pub fn read(path: &Path) -> Result<Saved, Trouble> {
        let trouble = |why| Trouble::file(path, why);
        let mut bytes = Vec::new();
        let file = File::open(path).map_err(trouble)?;
        file.take(SIZE as u64 + 1).read_to_end(&mut bytes).map_err(trouble)?;
        if bytes.len() != SIZE || !bytes.starts_with(MARK) {
            let why = "it is no state that this version of lomqashe saved";
            return Err(trouble(io::Error::new(io::ErrorKind::InvalidData, why)));
        }
        Ok(Saved {
            rows: u64::from_le_bytes(bytes[ROWS..STATE].try_into().expect("eight bytes")),
            state: State::try_from(&bytes[STATE..]).expect("a state's bytes"),
        })
    }

    pub fn write(&self, path: &Path) -> Result<(), Trouble> {
        let bytes = [&MARK[..], &self.rows.to_le_bytes(), self.state.as_ref()].concat();
        fs::write(path, bytes).map_err(|why| Trouble::file(path, why))
    }
}
