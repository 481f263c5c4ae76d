//! The words of a command line.

use super::sheet::Form;
use lomqashe::CHANNELS;
use std::ffi::{OsStr, OsString};
use std::ops::Range;
use std::os::unix::ffi::OsStrExt;
use std::path::PathBuf;

pub enum Wish {
    Help,
    Version,
    Sheet(Box<Args>),
}

pub struct Args {
    /// None is standard input.
    pub file: Option<PathBuf>,
    pub rate: Option<u32>,
    /// Those of all channels, where one is named; Open refuses what is out of the span.
    pub transpositions: Option<[i8; CHANNELS]>,
    pub rows: u64,
    pub sections: u32,
    pub form: Form,
    pub once: bool,
    /// Open closed tunes alone.
    pub closed: bool,
    pub svg: Option<PathBuf>,
    pub save: Option<PathBuf>,
    pub from: Option<PathBuf>,
    pub records: Option<PathBuf>,
    pub columns: Option<PathBuf>,
    /// A stored file, whose sheet is printed: no tune is read.
    pub restore: Option<PathBuf>,
}

impl Default for Args {
    fn default() -> Args {
        Args {
            file: None,
            rate: None,
            transpositions: None,
            rows: 10_000,
            sections: 50,
            form: Form::Rows,
            once: false,
            closed: false,
            svg: None,
            save: None,
            from: None,
            records: None,
            columns: None,
            restore: None,
        }
    }
}

/// An option's name, and the value behind its `=`.
struct Word {
    name: String,
    joined: Option<OsString>,
}

impl Word {
    fn of(word: &OsStr) -> Word {
        let bytes = word.as_bytes();
        let (name, joined) = match bytes.iter().position(|&byte| byte == b'=') {
            Some(at) => (&bytes[..at], Some(OsStr::from_bytes(&bytes[at + 1..]).to_owned())),
            None => (bytes, None),
        };
        let name = String::from_utf8_lossy(name).into_owned();
        Word { name, joined }
    }

    fn alone(&self) -> Result<(), String> {
        match self.joined {
            Some(_) => Err(format!("{} takes no value", self.name)),
            None => Ok(()),
        }
    }

    /// The value behind the `=`, or else the next word.
    fn value(&self, words: &mut impl Iterator<Item = OsString>) -> Result<OsString, String> {
        let value = self.joined.clone().or_else(|| words.next());
        value
            .filter(|value| !value.is_empty())
            .ok_or(format!("{} needs a value", self.name))
    }

    fn number(&self, words: &mut impl Iterator<Item = OsString>, least: u64, most: u64) -> Result<u64, String> {
        let value = self.value(words)?;
        let (name, text) = (&self.name, value.to_string_lossy());
        match text.parse() {
            Ok(n) if (least..=most).contains(&n) => Ok(n),
            _ => Err(format!("{name} takes a number from {least} to {most}, not {text}")),
        }
    }

    /// Channels and their transposition: N for all, K:N for channel K. A whole number that no `i8` holds becomes the nearest
    /// one, which is out of the span as well.
    fn transposition(&self, words: &mut impl Iterator<Item = OsString>) -> Result<(Range<usize>, i8), String> {
        let value = self.value(words)?;
        let text = value.to_string_lossy();
        let (channels, by) = match text.split_once(':') {
            Some((channel, by)) => (channel_of(channel), by),
            None => (Some(0..CHANNELS), &*text),
        };
        channels.zip(semitones(by)).ok_or(format!(
            "{} takes whole semitones, or a channel from 0 to {} and semitones as 3:-5, not {text}",
            self.name,
            CHANNELS - 1
        ))
    }

    /// A file's name; standard output has the sheet, and standard input the tune.
    fn path(&self, words: &mut impl Iterator<Item = OsString>) -> Result<Option<PathBuf>, String> {
        let value = self.value(words)?;
        if value == "-" {
            return Err(format!("{} needs a file's name, not -", self.name));
        }
        Ok(Some(value.into()))
    }
}

fn channel_of(text: &str) -> Option<Range<usize>> {
    let channel = text.parse().ok().filter(|&channel| channel < CHANNELS)?;
    Some(channel..channel + 1)
}

fn semitones(text: &str) -> Option<i8> {
    let digits = text.strip_prefix(['-', '+']).unwrap_or(text);
    if digits.is_empty() || !digits.bytes().all(|digit| digit.is_ascii_digit()) {
        return None;
    }
    let nearest = if text.starts_with('-') { i8::MIN } else { i8::MAX };
    Some(text.parse().unwrap_or(nearest))
}

/// The wish of a command line, or what is wrong with it. An option's value stands behind it or behind its `=`.
pub fn parse(mut words: impl Iterator<Item = OsString>) -> Result<Wish, String> {
    let mut args = Args::default();
    let mut files = Vec::new();
    let mut named = Vec::new();
    let mut options = true;
    while let Some(word) = words.next() {
        if !options || word == "-" || !word.as_bytes().starts_with(b"-") {
            files.push(PathBuf::from(word));
            continue;
        }
        let word = Word::of(&word);
        match word.name.as_str() {
            "--help" | "-h" => return word.alone().map(|()| Wish::Help),
            "--version" | "-V" => return word.alone().map(|()| Wish::Version),
            "--" => {
                word.alone()?;
                options = false;
            }
            _ => {
                option(&mut args, &word, &mut words)?;
                named.push(word.name);
            }
        }
    }
    if files.len() > 1 {
        return Err("more than one file is named".into());
    }
    if args.restore.is_some() {
        go_with_restore(&named, &files)?;
    }
    if args.from.is_some() {
        go_with_from(&args)?;
    }
    args.file = files.pop().filter(|file| file.as_os_str() != "-");
    Ok(Wish::Sheet(args.into()))
}

/// What is printed of a record, and where the records are written.
const WITH_RESTORE: [&str; 4] = ["--restore", "--strikes", "--channels", "--records"];

fn go_with_restore(options: &[String], files: &[PathBuf]) -> Result<(), String> {
    let other = options.iter().find(|name| !WITH_RESTORE.contains(&name.as_str()));
    let tune = files.first().map(|_| "a tune");
    match other.map(String::as_str).or(tune) {
        Some(what) => Err(format!(
            "{what} does not go with --restore, which reads a stored sheet and no tune"
        )),
        None => Ok(()),
    }
}

fn go_with_from(args: &Args) -> Result<(), String> {
    if args.rate.is_some() {
        return Err("--rate does not go with --from: a state has its card's rate".into());
    }
    if args.transpositions.is_some() {
        return Err("--transpose does not go with --from: a state has its channels' transpositions".into());
    }
    Ok(())
}

fn option(args: &mut Args, word: &Word, words: &mut impl Iterator<Item = OsString>) -> Result<(), String> {
    match word.name.as_str() {
        "--channels" => form(args, word, Form::Channels)?,
        "--strikes" => form(args, word, Form::Strikes)?,
        "--once" => {
            word.alone()?;
            args.once = true;
        }
        "--closed" => {
            word.alone()?;
            args.closed = true;
        }
        "--rate" => args.rate = Some(word.number(words, 1, 100_000)? as u32),
        "--transpose" => {
            let (channels, by) = word.transposition(words)?;
            let all = args.transpositions.get_or_insert_default();
            all[channels].fill(by);
        }
        "--rows" => args.rows = word.number(words, 0, u64::from(u32::MAX))?,
        "--sections" => args.sections = word.number(words, 1, 65_535)? as u32,
        "--svg" => args.svg = word.path(words)?,
        "--save" => args.save = word.path(words)?,
        "--from" => args.from = word.path(words)?,
        "--records" => args.records = word.path(words)?,
        "--columns" => args.columns = word.path(words)?,
        "--restore" => args.restore = word.path(words)?,
        name => return Err(format!("there is no option {name}")),
    }
    Ok(())
}

fn form(args: &mut Args, word: &Word, form: Form) -> Result<(), String> {
    word.alone()?;
    if args.form != Form::Rows && args.form != form {
        return Err("--strikes does not go with --channels: a sheet has lines of one form".into());
    }
    args.form = form;
    Ok(())
}
