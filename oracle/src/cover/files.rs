//! Files: the rules 1 to 8 alone and together, their edges, and what a good file has of all that the reading turns on.

use super::Tally;
use crate::calls::Function;
use crate::list::Case;
use crate::reader::{self, End, Entry, INSTRUMENT_BYTES, Lent, Lists};
use crate::tune::{CHANNELS, ROWS, le16, le32};
use std::ops::Range;

/// The instrument types to be seen.
const KINDS: [u8; 11] = [0, 1, 2, 3, 4, 5, 6, 7, 8, 9, 255];
const LEAST_FILES: usize = 600;
const MOST_FILE_BYTES: usize = 8_192;

/// A file with its lists, the places that its pointers name, what Read is lent, the rules that are broken, and whether
/// there is none.
struct File<'a> {
    bytes: &'a [u8],
    lists: Lists,
    instruments: Vec<usize>,
    patterns: Vec<usize>,
    lent: Lent,
    broken: Vec<u8>,
    good: bool,
}

pub fn needs(tally: &mut Tally) {
    tally.prefix = "file: ";
    tally.family("Measure {}", 0..=5);
    tally.family("Read {}", 0..=8);
    for rule in 2..8 {
        tally.family(&format!("rules {rule} and {{}} alone"), rule + 1..=8);
    }
    for flags in (0..8).map(|flags| flags * 32) {
        let there = 1..=reader::follow(flags);
        tally.family(&format!("entry of flags {flags:#04x} cut behind {{}}"), there);
    }
    tally.pairs("lent {} one {}", ["orders", "samples", "cells"], &["short", "long"]);
    let pans = ["its own pan", "bit 5 clear", "a given pan"];
    tally.pairs("setting {} with {}", 0..=255, &pans);
    tally.pairs("channel twice, flags {} then {}", 0..8, &[0, 1, 2, 3, 4, 5, 6, 7]);
    let places = ["pointer 0", "in the header", "in the lists", "from byte 4,096 up"];
    tally.pairs("{} {}", ["instrument", "pattern"], &places);
    tally.pairs("{} {}", ["instruments", "patterns"], &["shared", "overlapping"]);
    tally.prefix = "";
}

/// The answer is that of the first broken rule.
pub fn see(tally: &mut Tally, case: &Case) -> Result<(), String> {
    let (call, refusal) = (&case.call, case.answer.refusal());
    let (bytes, lent) = (&call.slots[0][..], call.lent());
    let broken = reader::broken(bytes, &lent);
    let (name, most) = [("Measure", 5), ("Read", 8)][call.function as usize];
    tally.note(format!("{name} {refusal}"));
    if refusal != broken.first().copied().filter(|&rule| rule <= most).unwrap_or(0) {
        return Err(format!("refused by {refusal}, but broken are {broken:?}"));
    }
    if call.function == Function::Measure {
        return Ok(());
    }
    tally.among("{} bytes", [0, 1, 95, 96], bytes.len());
    see_rules(tally, &broken);
    if broken.is_empty() {
        tally.among("rate {}", [0, 1, 100_000, 100_001, u32::MAX], call.number);
    }
    if let Some(lists) = Lists::of(bytes).filter(|_| bytes.len() >= 96) {
        let [instruments, patterns] = lists.places(bytes);
        let file = File {
            bytes,
            lists,
            instruments,
            patterns,
            lent,
            good: broken.is_empty(),
            broken,
        };
        see_file(tally, &file);
    }
    Ok(())
}

fn see_rules(tally: &mut Tally, broken: &[u8]) {
    match *broken {
        [rule] => tally.among("rule {} alone", 1..=8, rule),
        [1, ref others @ ..] => {
            for other in others {
                tally.among("rule 1 wins over {}", 2..=6, other);
            }
        }
        [rule, other] => tally.note(format!("rules {rule} and {other} alone")),
        _ => {}
    }
}

fn see_file(tally: &mut Tally, file: &File) {
    let wrong: Vec<usize> = (44..48).filter(|&at| file.bytes[at] != b"SCRM"[at - 44]).collect();
    if let [at] = wrong[..] {
        tally.among("byte {} of SCRM alone wrong", 44..48, at);
    }
    if file.broken.first().is_none_or(|&first| first > 2) {
        tally.among("{} orders", [0, 255, 256, 65_535], file.lists.orders);
        tally.among("{} instruments", [99, 100, 65_535], file.lists.instruments);
        tally.among("{} patterns", [100, 101, 65_535], file.lists.patterns);
    }
    see_head(tally, file);
    if file.broken == [6] {
        see_lent(tally, file);
    }
    if file.broken.iter().all(|&rule| rule >= 7) {
        see_instrument_ends(tally, file);
        see_pattern_ends(tally, file);
    }
    if file.good {
        see_good(tally, file);
    }
}

/// Where the lists end, and the levels.
fn see_head(tally: &mut Tally, file: &File) {
    let (length, end, pans) = (file.bytes.len(), file.lists.end(), file.lists.has_pans);
    let (good, alone) = (file.good, file.broken == [5]);
    let ends = end == length && good;
    let short = end == length + 1 && file.broken.first() == Some(&4);
    let [volume, speed, tempo] = [48, 49, 50].map(|at| file.bytes[at]);
    tally.anywhere([
        (ends && !pans, "lists end with the file, good"),
        (ends && pans, "lists end with the file, with pans, good"),
        (short && !pans, "lists one byte short"),
        (short && pans, "lists one byte short, with pans"),
        (alone && speed == 0, "speed 0"),
        (alone && tempo == 31, "tempo 31"),
        (alone && volume == 65, "volume 65"),
        (good && tempo == 32, "tempo 32, good"),
        (good && volume == 64, "volume 64, good"),
    ]);
}

/// One table alone is a byte off.
fn see_lent(tally: &mut Tally, file: &File) {
    let tables = ["orders", "samples", "cells"].into_iter();
    let tables = tables.zip(file.lent).zip(file.lists.needs());
    let off: Vec<_> = tables.filter(|((_, lent), needs)| lent != needs).collect();
    match off[..] {
        [((table, lent), needs)] if lent + 1 == needs => tally.note(format!("lent {table} one short")),
        [((table, lent), needs)] if lent == needs + 1 => tally.note(format!("lent {table} one long")),
        _ => {}
    }
}

fn see_instrument_ends(tally: &mut Tally, file: &File) {
    let length = file.bytes.len();
    for &at in &file.instruments {
        let (end, wrapped) = (at + INSTRUMENT_BYTES, at & 0xFFFF);
        let held = at > 0xFFFF && wrapped != 0 && !reader::is_cut_instrument(file.bytes, wrapped);
        let ends = end == length && file.good;
        if end == length + 1 {
            tally.among("instrument of type {} one byte past", KINDS, file.bytes[at]);
        }
        tally.anywhere([
            (ends, "instrument ends with the file, good"),
            (at >= length, "instrument's type past the file"),
            (held, "instrument pointer that 16 bits would cut to the file"),
        ]);
    }
}

fn see_pattern_ends(tally: &mut Tally, file: &File) {
    let is_cut = |&at: &usize| reader::is_cut_pattern(file.bytes, at);
    for &at in file.patterns.iter().filter(|&&at| at != 0) {
        let held = at > 0xFFFF && at & 0xFFFF != 0 && !is_cut(&(at & 0xFFFF));
        tally.anywhere([(held, "pattern pointer that 16 bits would cut to the file")]);
        see_pattern_end(tally, file, at);
    }
    let mut instruments = file.instruments.iter();
    let cut = instruments.position(|&at| reader::is_cut_instrument(file.bytes, at));
    let late = cut.is_some_and(|first| first > 0 && first + 1 == file.instruments.len());
    let both = late && file.patterns.first().is_some_and(is_cut) && file.broken == [7, 8];
    tally.anywhere([(both, "late instrument wins over early pattern")]);
}

/// How the pattern at a place ends.
fn see_pattern_end(tally: &mut Tally, file: &File, at: usize) {
    let (entries, end) = reader::entries(file.bytes, at);
    let length = file.bytes.len();
    if let End::Entry { what, there } = end {
        tally.note(format!("entry of flags {:#04x} cut behind {there}", what & 0xE0));
    }
    let first = end == End::Row(0) && length == at + 2;
    let behind = entries.last().is_some_and(|entry| end == End::Row(entry.row));
    let ends = end == End::Whole(length) && file.good;
    tally.anywhere([
        (ends, "pattern ends with the file, good"),
        (end == End::Unread(0), "pattern past the file"),
        (matches!(end, End::Unread(1..)), "pattern cut within the unread bytes"),
        (first, "pattern cut right behind the unread bytes"),
        (behind, "pattern cut right behind an entry"),
        (end == End::Row(63), "pattern cut before its last row's end"),
    ]);
}

/// What a good file has.
fn see_good(tally: &mut Tally, file: &File) {
    let orders = &file.bytes[96..96 + file.lists.orders];
    tally.among("good: {} orders", [1, 255], file.lists.orders);
    tally.among("good: {} instruments", [0, 99], file.lists.instruments);
    tally.among("good: {} patterns", 0..=6, file.lists.patterns);
    tally.anywhere([
        (orders.contains(&0xFE), "good: 0xFE among the orders"),
        (orders.contains(&0xFF), "good: 0xFF among the orders"),
    ]);
    see_places(tally, file);
    see_channels(tally, file.bytes, &file.lists);
    see_switches(tally, file.bytes);
    for &at in file.instruments.iter().filter(|&&at| at != 0) {
        see_instrument(tally, &file.bytes[at..]);
    }
    for &at in file.patterns.iter().filter(|&&at| at != 0) {
        see_pattern(tally, file.bytes, at);
    }
}

/// Where instruments and patterns lie: behind the lists, in each other, or before.
fn see_places(tally: &mut Tally, file: &File) {
    let (bytes, lists) = (file.bytes, &file.lists);
    let end = |at| match reader::entries(bytes, at).1 {
        End::Whole(end) => end,
        _ => at,
    };
    let instruments = file.instruments.iter().map(|&at| at..at + INSTRUMENT_BYTES);
    let patterns = file.patterns.iter().map(|&at| at..end(at));
    let (instruments, patterns): (Vec<_>, Vec<_>) = (instruments.collect(), patterns.collect());
    see_parts(tally, "instrument", &instruments, lists);
    see_parts(tally, "pattern", &patterns, lists);
    let inside = |part: &Range<usize>, of: &[Range<usize>]| {
        part.start >= lists.end() && of.iter().any(|other| other.start != 0 && other.contains(&part.start))
    };
    for part in &instruments {
        tally.anywhere([(inside(part, &patterns), "instrument in a pattern")]);
    }
    for part in &patterns {
        let behind = part.start >= lists.end() && part.end < bytes.len();
        tally.anywhere([
            (inside(part, &instruments), "pattern in an instrument"),
            (behind, "bytes behind a pattern"),
        ]);
    }
}

fn see_parts(tally: &mut Tally, name: &str, parts: &[Range<usize>], lists: &Lists) {
    for (i, part) in parts.iter().enumerate() {
        match part.start {
            0 => tally.note(format!("{name} pointer 0")),
            1..96 => tally.note(format!("{name} in the header")),
            start if start < lists.end() => tally.note(format!("{name} in the lists")),
            4_096.. => tally.note(format!("{name} from byte 4,096 up")),
            _ => {}
        }
        for other in parts[..i].iter().filter(|other| part.start != 0 && other.start != 0) {
            if other.start == part.start {
                tally.note(format!("{name}s shared"));
            } else if other.start < part.end && part.start < other.end {
                tally.note(format!("{name}s overlapping"));
            }
        }
    }
}

fn see_channels(tally: &mut Tally, file: &[u8], lists: &Lists) {
    let behind = file.get(lists.pans()..lists.pans() + CHANNELS);
    let marked = behind.is_some_and(|bytes| bytes.iter().all(|byte| byte & 0x20 != 0));
    tally.anywhere([(!lists.has_pans && marked, "no pans, bit 5 behind the lists")]);
    for (i, setting) in file[64..96].iter().enumerate() {
        if !lists.has_pans {
            tally.note(format!("setting {setting} with its own pan"));
            continue;
        }
        let (pan, place) = (file[lists.pans() + i], setting & 0x7F);
        let given = pan & 0x20 != 0;
        let whose = if given { "a given pan" } else { "bit 5 clear" };
        tally.among("pan byte {}", 0..=255, pan);
        tally.note(format!("setting {setting} with {whose}"));
        tally.anywhere([
            (given && place < 8, "pan given, setting left"),
            (given && (8..16).contains(&place), "pan given, setting right"),
            (given && (16..32).contains(&place), "pan given, setting AdLib"),
            (given && place >= 32, "pan given, setting another"),
        ]);
    }
}

fn see_switches(tally: &mut Tally, file: &[u8]) {
    let (flags, version) = (le16(file, 38), le16(file, 40));
    let (by_flag, by_version) = (flags & 64 != 0, version == 0x1300);
    if flags.is_power_of_two() {
        tally.among("flag bit {} alone", 0..16, flags.trailing_zeros());
    }
    if !by_flag && !by_version {
        tally.among("no fast slides, version {}", [0x1301, 0x12FF, 0x13], version);
    }
    let [volume, speed, tempo] = [48, 49, 50].map(|at| file[at]);
    tally.anywhere([
        (by_flag && !by_version, "fast slides by flag alone"),
        (!by_flag && by_version, "fast slides by version alone"),
        (by_flag && by_version, "fast slides by both"),
        (flags & 0xFF10 == 16, "Amiga limits, high byte 0"),
        (flags & 0xFF10 == 0x1000, "no Amiga limits, high byte 0x10"),
        (speed == 1, "speed 1"),
        (speed == 255, "speed 255"),
        (tempo == 255, "tempo 255"),
        (volume == 0, "volume 0"),
        (file[29] != 0x10, "file type byte not 0x10"),
    ]);
}

fn see_instrument(tally: &mut Tally, part: &[u8]) {
    let (kind, flags) = (part[0], part[31]);
    let (pcm, adlib, other_bits) = (kind == 1, (2..=7).contains(&kind), flags != 0 && flags & 1 == 0);
    tally.among("instrument type {}", KINDS, kind);
    tally.anywhere([
        (pcm && flags == 0, "PCM, byte 31 of 0"),
        (pcm && flags == 1, "PCM, byte 31 with bit 0 alone"),
        (pcm && flags == 255, "PCM, byte 31 with all bits"),
        (pcm && other_bits, "PCM, byte 31 with other bits alone"),
        (adlib && flags & 1 != 0, "AdLib, byte 31 with bit 0"),
        (pcm && part[28] > 64, "volume above 64"),
        (pcm && le32(part, 16) > 65_535, "length above 65,535"),
        (pcm && le32(part, 32) > 65_535, "c5 speed above 65,535"),
    ]);
}

fn see_pattern(tally: &mut Tally, file: &[u8], at: usize) {
    let (entries, end) = reader::entries(file, at);
    let End::Whole(end) = end else { return };
    let (word, right) = (usize::from(le16(file, at)), end - at);
    let told = word != 0 && word != 65_535;
    tally.anywhere([
        (entries.is_empty(), "pattern without entries"),
        (word == 0, "pattern word 0"),
        (word == 65_535, "pattern word 65,535"),
        (told && word == right, "pattern word right"),
        (told && word < right, "pattern word too small"),
        (told && word > right, "pattern word too large"),
    ]);
    for row in 0..ROWS {
        let of_row: Vec<_> = entries.iter().filter(|entry| entry.row == row).collect();
        see_row(tally, &of_row);
    }
    for entry in &entries {
        tally.among("entry {}", (1..=255).map(hexadecimal), hexadecimal(entry.what));
        for (field, byte) in reader::fields(entry.what).zip(entry.data) {
            if *byte == 0 {
                tally.among("field {} of an entry 0", 0..5, field);
            }
        }
    }
}

fn hexadecimal(byte: u8) -> String {
    format!("{byte:#04x}")
}

fn see_row(tally: &mut Tally, entries: &[&Entry]) {
    let mut times = [0; CHANNELS];
    for (i, entry) in entries.iter().enumerate() {
        times[usize::from(entry.what % 32)] += 1;
        let mut earlier = entries[..i].iter().rev();
        if let Some(first) = earlier.find(|earlier| earlier.what % 32 == entry.what % 32) {
            let [first, then] = [first, entry].map(|entry| entry.what / 32);
            tally.note(format!("channel twice, flags {first} then {then}"));
        }
    }
    tally.anywhere([
        (entries.is_empty(), "row without entries"),
        (entries.len() > CHANNELS, "row of more than 32 entries"),
        (times.iter().all(|&times| times > 0), "row of 32 channels"),
        (times.iter().any(|&times| times > 2), "channel named three times"),
    ]);
}

/// Enough files, most of them small.
pub fn see_sizes(tally: &mut Tally, cases: &[Case]) {
    let read = cases.iter().filter(|case| case.call.function == Function::Read);
    let sizes: Vec<usize> = read.map(|case| case.call.slots[0].len()).collect();
    let small = sizes.iter().filter(|&&size| size < 3_072).count();
    let short = sizes.iter().all(|&size| size <= MOST_FILE_BYTES);
    tally.anywhere([
        (sizes.len() >= LEAST_FILES, "600 files or more"),
        (short, "files of at most 8,192 bytes"),
        (2 * small > sizes.len(), "half of the files below 3 KB"),
    ]);
}
