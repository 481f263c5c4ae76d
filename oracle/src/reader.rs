//! Reads an S3M file as 01's part 'Measure and Read' says, independent of the original's header.rs and pattern.rs. A
//! refusal is its number in 01's list.

use crate::tune::*;

pub const HEADER_BYTES: usize = 96;
pub const PANS_MARK: u8 = 252;
pub const INSTRUMENT_BYTES: usize = 80;

/// The lengths in bytes of the tables that Read is lent: orders, samples, cells.
pub type Lent = [usize; 3];

/// The file's lists, as its counts say they lie.
#[derive(Clone, Copy)]
pub struct Lists {
    pub orders: usize,
    pub instruments: usize,
    pub patterns: usize,
    pub has_pans: bool,
}

impl Lists {
    pub fn new(orders: usize, instruments: usize, patterns: usize, has_pans: bool) -> Lists {
        Lists {
            orders,
            instruments,
            patterns,
            has_pans,
        }
    }

    /// None where the counts or byte 53 are not there.
    pub fn of(file: &[u8]) -> Option<Lists> {
        let count = |at| usize::from(le16(file, at));
        (file.len() >= 54).then(|| Lists::new(count(32), count(34), count(36), file[53] == PANS_MARK))
    }

    /// The lengths that the counts need.
    pub fn needs(&self) -> Lent {
        let (samples, cells) = (self.instruments * SAMPLE_BYTES, self.patterns * PATTERN_BYTES);
        [self.orders, samples, cells]
    }

    /// Where the lists behind the orders begin: instrument pointers, pattern pointers, pans.
    pub fn instrument_list(&self) -> usize {
        HEADER_BYTES + self.orders
    }

    pub fn pattern_list(&self) -> usize {
        self.instrument_list() + 2 * self.instruments
    }

    pub fn pans(&self) -> usize {
        self.pattern_list() + 2 * self.patterns
    }

    pub fn end(&self) -> usize {
        self.pans() + if self.has_pans { CHANNELS } else { 0 }
    }

    /// Where the instrument pointers stand, and where the pattern pointers do.
    pub fn pointers(&self) -> [Vec<usize>; 2] {
        let (instruments, patterns) = (self.instrument_list(), self.pattern_list());
        let lists = [instruments..patterns, patterns..self.pans()];
        lists.map(|list| list.step_by(2).collect())
    }

    /// The places that they name, as far as the lists are there.
    pub fn places(&self, file: &[u8]) -> [Vec<usize>; 2] {
        self.pointers().map(|pointers| {
            let there = pointers.into_iter().filter(|at| at + 2 <= file.len());
            there.map(|at| 16 * usize::from(le16(file, at))).collect()
        })
    }
}

/// Refusals 1 to 5 in order, else the counts.
pub fn measure(file: &[u8]) -> Result<Lists, u8> {
    match broken(file, &Lent::default())[..] {
        [rule @ ..=5, ..] => Err(rule),
        _ => Ok(Lists::of(file).expect("the file has a header")),
    }
}

/// Refusals 1 to 8 in order, else the tune: Read with tables of these lengths.
pub fn read_lent(file: &[u8], lent: &Lent, rate: u32) -> Result<Tune, u8> {
    if let [rule, ..] = broken(file, lent)[..] {
        return Err(rule);
    }
    let lists = Lists::of(file).expect("the file has a header");
    let [instruments, patterns] = lists.places(file);
    Ok(Tune {
        orders: file[HEADER_BYTES..][..lists.orders].to_vec(),
        samples: instruments.into_iter().flat_map(|at| instrument(file, at)).collect(),
        cells: patterns.into_iter().flat_map(|at| cells(file, at)).collect(),
        opening: opening(file, &lists, rate),
    })
}

/// The same with tables of the very lengths that the counts need.
pub fn read(file: &[u8], rate: u32) -> Result<Tune, u8> {
    read_lent(file, &measure(file)?.needs(), rate)
}

/// The broken rules among 1 to 8, rising, each asked alone: one whose bytes are not in the file is not broken.
pub fn broken(file: &[u8], lent: &Lent) -> Vec<u8> {
    let byte = |at: usize| file.get(at).copied();
    let count = |at| (file.len() >= at + 2).then(|| usize::from(le16(file, at)));
    let [orders, instruments, patterns] = [32, 34, 36].map(count);
    let lists = Lists::of(file);
    let over = |count: Option<usize>, most: usize| count.is_some_and(|count| count > most);
    let other = |count: Option<usize>, size, lent| count.is_some_and(|count| count * size != lent);
    let places = lists.map(|lists| lists.places(file)).unwrap_or_default();
    let cut = |places: &[usize], is_cut: fn(&[u8], usize) -> bool| places.iter().any(|&at| is_cut(file, at));
    let rules = [
        file.len() < HEADER_BYTES,
        file.get(44..48).is_some_and(|mark| mark != b"SCRM"),
        orders == Some(0) || over(orders, 255) || over(instruments, 99) || over(patterns, 100),
        lists.is_some_and(|lists| lists.end() > file.len()),
        byte(49) == Some(0) || byte(50).is_some_and(|tempo| tempo < 32) || byte(48) > Some(64),
        other(orders, 1, lent[0])
            || other(instruments, SAMPLE_BYTES, lent[1])
            || other(patterns, PATTERN_BYTES, lent[2]),
        cut(&places[0], is_cut_instrument),
        cut(&places[1], is_cut_pattern),
    ];
    (1..).zip(rules).filter(|rule| rule.1).map(|rule| rule.0).collect()
}

pub fn is_cut_instrument(file: &[u8], at: usize) -> bool {
    at != 0 && file.len() < at + INSTRUMENT_BYTES
}

pub fn is_cut_pattern(file: &[u8], at: usize) -> bool {
    at != 0 && !matches!(entries(file, at).1, End::Whole(_))
}

fn opening(file: &[u8], lists: &Lists, rate: u32) -> Opening {
    let flags = le16(file, 38);
    let channel = |i: usize| {
        let mut channel = channel_setting(file[64 + i]);
        if lists.has_pans && file[lists.pans() + i] & 32 != 0 {
            channel.pan = file[lists.pans() + i] & 15;
        }
        channel
    };
    Opening {
        speed: file[49],
        tempo: file[50],
        global_volume: file[48],
        amiga_limits: flags & 16 != 0,
        fast_slides: flags & 64 != 0 || le16(file, 40) == 0x1300,
        rate,
        channels: std::array::from_fn(channel),
    }
}

fn channel_setting(setting: u8) -> ChannelOpening {
    let place = setting % 128;
    ChannelOpening {
        pan: match place {
            0..=7 => 3,
            8..=15 => 12,
            _ => 8,
        },
        muted: setting >= 128,
        right_bank: (8..=15).contains(&place),
        adlib: (16..=31).contains(&place),
        // 02: 'Read gives 0.'
        transposition: 0,
    }
}

/// The 20 bytes of a sample: all 0 for pointer 0 and for types but 1 to 7; AdLib types keep type, volume and c5 speed.
fn instrument(file: &[u8], at: usize) -> [u8; SAMPLE_BYTES] {
    let (b, mut out) = (&file[at..], [0; SAMPLE_BYTES]);
    if at == 0 || !(1..=7).contains(&b[0]) {
        return out;
    }
    out[0] = b[0];
    out[1] = b[28];
    out[16..].copy_from_slice(&b[32..36]);
    if b[0] == 1 {
        out[2] = b[31] & 1;
        out[4..16].copy_from_slice(&b[16..28]);
    }
    out
}

/// An entry of a packed pattern: its row, its first byte and what follows that.
pub struct Entry<'a> {
    pub row: usize,
    pub what: u8,
    pub data: &'a [u8],
}

/// How a pattern ends.
#[derive(Clone, Copy, Debug, PartialEq, Eq)]
pub enum End {
    /// Behind its 64th row, here.
    Whole(usize),
    /// Cut with so many of the two unread bytes there, or past the file.
    Unread(usize),
    /// Cut where an entry or the end of this row would stand.
    Row(usize),
    /// Cut within an entry, so many bytes of it there.
    Entry { what: u8, there: usize },
}

/// The entries of the pattern at a place, as far as they are whole, and its end.
pub fn entries(file: &[u8], at: usize) -> (Vec<Entry<'_>>, End) {
    let mut entries = Vec::new();
    if file.len() < at + 2 {
        return (entries, End::Unread(file.len().saturating_sub(at)));
    }
    let (mut at, mut row) = (at + 2, 0);
    while row < ROWS {
        let Some(&what) = file.get(at) else {
            return (entries, End::Row(row));
        };
        let Some(data) = file.get(at + 1..at + 1 + follow(what)) else {
            let there = file.len() - at;
            return (entries, End::Entry { what, there });
        };
        if what == 0 {
            row += 1;
        } else {
            entries.push(Entry { row, what, data });
        }
        at += 1 + data.len();
    }
    (entries, End::Whole(at))
}

/// How many bytes follow an entry's first byte.
pub fn follow(what: u8) -> usize {
    [0, 2, 1, 3, 2, 4, 3, 5][usize::from(what) / 32]
}

/// The fields of a cell that an entry's first byte names: note, instrument, volume, command, info.
pub fn fields(what: u8) -> impl Iterator<Item = usize> {
    let bits = [0x20, 0x20, 0x40, 0x80, 0x80];
    (0..CELL).filter(move |&field| what & bits[field] != 0)
}

/// The cells of the pattern at a place, empty for pointer 0: the last entry of a channel is its cell.
fn cells(file: &[u8], at: usize) -> Vec<u8> {
    let mut out = EMPTY_CELL.repeat(ROWS * CHANNELS);
    for entry in entries(file, at).0.iter().filter(|_| at != 0) {
        let cell = &mut out[entry.row * ROW_BYTES + usize::from(entry.what % 32) * CELL..][..CELL];
        cell.copy_from_slice(&EMPTY_CELL);
        for (field, byte) in fields(entry.what).zip(entry.data) {
            cell[field] = *byte;
        }
    }
    out
}
