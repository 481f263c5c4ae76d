//! The command run, and small S3M files, laid out as 01 says.
#![allow(dead_code)]

use std::io::Write;
use std::path::{Path, PathBuf};
use std::process::{Command, Output, Stdio};
use std::{env, fs, io, process};

pub const LOMQASHE: &str = env!("CARGO_BIN_EXE_lomqashe");
pub const WORKED: &str = concat!(env!("CARGO_MANIFEST_DIR"), "/../oracle/examples/worked.s3m");
pub const SHEET: &str = include_str!("../../../oracle/examples/worked.sheet");

pub fn run(words: &[&str], input: &[u8]) -> Output {
    let mut child = Command::new(LOMQASHE)
        .args(words)
        .stdin(Stdio::piped())
        .stdout(Stdio::piped())
        .stderr(Stdio::piped())
        .spawn()
        .expect("the command starts");
    let _ = child.stdin.take().expect("it was piped").write_all(input);
    child.wait_with_output().expect("it ends")
}

/// Runs the command with a standard output that nobody reads.
pub fn unread(words: &[&str]) -> Output {
    let (reader, writer) = io::pipe().expect("a pipe");
    drop(reader);
    let child = Command::new(LOMQASHE)
        .args(words)
        .stdin(Stdio::null())
        .stdout(writer)
        .stderr(Stdio::piped())
        .spawn();
    child.and_then(|child| child.wait_with_output()).expect("it ends")
}

pub fn text(bytes: &[u8]) -> &str {
    std::str::from_utf8(bytes).expect("text")
}

/// A folder for a test's files, removed behind it.
pub struct Folder(PathBuf);

impl Folder {
    pub fn new(name: &str) -> Folder {
        let path = env::temp_dir().join(format!("lomqashe-{name}-{}", process::id()));
        fs::create_dir_all(&path).expect("a folder");
        Folder(path)
    }

    pub fn path(&self, name: &str) -> String {
        self.0.join(name).to_str().expect("its name is text").into()
    }

    /// Writes a file and gives its path.
    pub fn write(&self, name: &str, bytes: &[u8]) -> String {
        let path = self.path(name);
        fs::write(Path::new(&path), bytes).expect("it is written");
        path
    }
}

impl Drop for Folder {
    fn drop(&mut self) {
        let _ = fs::remove_dir_all(&self.0);
    }
}

/// The letters' command numbers.
pub const A: u8 = 1;
pub const B: u8 = 2;
pub const C: u8 = 3;
pub const S: u8 = 19;
pub const V: u8 = 22;

/// What stands in a cell.
#[derive(Clone, Copy)]
pub struct Put {
    pub row: usize,
    pub channel: u8,
    /// A note of instrument 1.
    pub note: Option<u8>,
    pub command: u8,
    pub info: u8,
}

pub fn put(row: usize, channel: u8, command: u8, info: u8) -> Put {
    Put {
        row,
        channel,
        note: None,
        command,
        info,
    }
}

pub fn note(row: usize, channel: u8) -> Put {
    pitched(row, channel, 0x40)
}

/// A note by its byte: octave in the high nibble, semitone in the low one.
pub fn pitched(row: usize, channel: u8, byte: u8) -> Put {
    Put {
        note: Some(byte),
        ..put(row, channel, 0, 0)
    }
}

/// A file with one PCM instrument, speed 6, tempo 125, global volume 64: a row is 7,200 micrometres at 60,000 a second.
pub fn file(orders: &[u8], patterns: &[&[Put]]) -> Vec<u8> {
    let mut out = vec![0; 96];
    out[32] = orders.len() as u8;
    out[34] = 1;
    out[36] = patterns.len() as u8;
    out[44..48].copy_from_slice(b"SCRM");
    out[48..51].copy_from_slice(&[64, 6, 125]);
    out.extend(orders);
    let pointers = out.len();
    out.resize(pointers + 2 * (1 + patterns.len()), 0);
    let instrument = paragraph(&mut out);
    let at = out.len();
    out.resize(at + 80, 0);
    out[at] = 1;
    out[at + 28] = 64;
    out[at + 32..at + 34].copy_from_slice(&8363_u16.to_le_bytes());
    let mut pointed = vec![instrument];
    for pattern in patterns {
        pointed.push(paragraph(&mut out));
        packed(pattern, &mut out);
    }
    for (i, pointer) in pointed.iter().enumerate() {
        out[pointers + 2 * i..][..2].copy_from_slice(&pointer.to_le_bytes());
    }
    out
}

/// Goes back to its first row from row 3: rows 0 to 3 for ever.
pub fn endless() -> Vec<u8> {
    file(&[0], &[&[note(0, 0), put(3, 0, B, 0)]])
}

/// Rows 0, 1 (held twice more) and 2, with two strikes: five rows.
pub fn held() -> Vec<u8> {
    file(&[0], &[&[note(0, 0), put(1, 1, S, 0xE2), note(2, 0), put(2, 1, B, 9)]])
}

/// Fills up to the next place that a pointer can name, and gives the pointer.
fn paragraph(out: &mut Vec<u8>) -> u16 {
    out.resize(out.len().next_multiple_of(16), 0);
    (out.len() / 16) as u16
}

fn packed(pattern: &[Put], out: &mut Vec<u8>) {
    out.extend([0, 0]);
    for row in 0..64 {
        for cell in pattern.iter().filter(|cell| cell.row == row) {
            let bits = u8::from(cell.note.is_some()) << 5 | u8::from(cell.command != 0) << 7;
            out.push(cell.channel | bits);
            out.extend(cell.note.map(|note| [note, 1]).into_iter().flatten());
            if cell.command != 0 {
                out.extend([cell.command, cell.info]);
            }
        }
        out.push(0);
    }
}
