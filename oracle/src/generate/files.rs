//! S3M files, good ones and damaged ones, each from its seed alone: header and lists first, then parts on paragraphs.

use super::noise;
use crate::calls::Call;
use crate::random::Random;
use crate::reader::{HEADER_BYTES, INSTRUMENT_BYTES, Lent, Lists, PANS_MARK, follow};
use crate::tune::{CHANNELS, PATTERN_BYTES, ROWS, SAMPLE_BYTES, le16};

/// The flag bits of an entry, alone and together.
const FLAGS: [u8; 8] = [0, 0x20, 0x40, 0x60, 0x80, 0xA0, 0xC0, 0xE0];
const MOST_LENT: Lent = [256, 100 * SAMPLE_BYTES, 6 * PATTERN_BYTES];

/// A file under construction.
pub struct Draft {
    pub bytes: Vec<u8>,
    lists: Lists,
}

impl Draft {
    /// A header with the mark of the format, the counts and the mark of pans, and lists of zeros.
    pub fn over(mut bytes: Vec<u8>, lists: Lists) -> Draft {
        bytes[44..48].copy_from_slice(b"SCRM");
        bytes[53] = match (lists.has_pans, bytes[53]) {
            (true, _) => PANS_MARK,
            (false, PANS_MARK) => 0,
            (false, other) => other,
        };
        bytes.resize(lists.end(), 0);
        let mut draft = Draft { bytes, lists };
        for (at, count) in [(32, lists.orders), (34, lists.instruments), (36, lists.patterns)] {
            draft.set16(at, count as u16);
        }
        draft
    }

    fn set16(&mut self, at: usize, value: u16) {
        self.bytes[at..at + 2].copy_from_slice(&value.to_le_bytes());
    }

    /// Speed, tempo and global volume.
    pub fn set_levels(&mut self, [speed, tempo, volume]: [u8; 3]) {
        self.bytes[48..51].copy_from_slice(&[volume, speed, tempo]);
    }

    /// Puts a part on the next paragraph, to which the pointer at this place points.
    pub fn put(&mut self, pointer: usize, part: &[u8]) {
        let next = self.paragraphs();
        self.set16(pointer, next);
        self.bytes.resize(16 * usize::from(next), 0);
        self.bytes.extend(part);
    }

    /// The pointer of the first paragraph that does not begin in the file.
    fn paragraphs(&self) -> u16 {
        self.bytes.len().div_ceil(16) as u16
    }
}

/// Read's call on the file of a seed, which breaks some of the rules 1 to 8 or none.
pub fn made(seed: u64) -> Call {
    let random = &mut Random::new(seed);
    let (any, edge) = (random.number() as u32, random.one(&[0, 1, 100_000, 100_001, u32::MAX]));
    let rate = random.weighted(&[(2, 60_000), (2, any), (2, edge)]);
    let count = random.weighted(&[(10, 0), (3, 1), (5, 2), (1, 6)]);
    let rules: Vec<u8> = (0..count).map(|_| random.between(1, 8)).collect();
    let mut draft = header(random, rules.contains(&3));
    if rules.contains(&4) {
        let (pans, end) = (draft.lists.pans(), draft.lists.end());
        let any = HEADER_BYTES + random.index(end - HEADER_BYTES + 1);
        let length = random.one(&[end - 1, end - 1, pans - 1, end, any]);
        draft.bytes.truncate(length);
    } else {
        put_parts(random, &mut draft);
    }
    rules.iter().for_each(|&rule| break_rule(random, &mut draft, rule));
    let lent = lent(random, &draft.bytes, rules.contains(&6));
    Call::read(&draft.bytes, rate, &lent)
}

/// Noise wherever nothing is said, levels in range, flags and a version at their edges, all pointers 0.
fn header(random: &mut Random, broken: bool) -> Draft {
    let lists = lists(random, broken);
    let mut draft = Draft::over(noise(random, HEADER_BYTES), lists);
    let levels = [random.between(1, 255), random.between(32, 255), random.between(0, 64)];
    draft.set_levels(random.one(&[levels, levels, [1, 32, 0], [255, 255, 64]]));
    let (any, bit) = (random.number() as u16, 1 << random.below(16));
    draft.set16(38, random.one(&[any, bit, bit, 0, 16, 64, 0xFFBF]));
    draft.set16(40, random.one(&[any, 0x1320, 0x1300, 0x1301, 0x12FF, 0x0013]));
    for order in &mut draft.bytes[HEADER_BYTES..lists.instrument_list()] {
        let (there, odd) = (random.index(lists.patterns + 1) as u8, random.byte());
        *order = random.weighted(&[(6, there), (1, 0xFE), (1, 0xFF), (1, odd)]);
    }
    draft.bytes[lists.pans()..].fill_with(|| random.byte());
    draft
}

/// The counts; where rule 3 is to be broken, one too large or 0, or the most that it takes.
fn lists(random: &mut Random, broken: bool) -> Lists {
    let (any, [some, few, others]) = (random.index(100), [(); 3].map(|_| random.index(5)));
    let orders = 1 + random.weighted(&[(6, some), (1, any), (1, 254)]);
    let instruments = random.weighted(&[(12, few), (1, any), (1, 99)]);
    let patterns = random.weighted(&[(8, others), (1, 5), (1, 6)]);
    let (orders, instruments, patterns) = match random.below(5) {
        _ if !broken => (orders, instruments, patterns),
        0 => (0, instruments, patterns),
        1 => (256, instruments, patterns),
        2 => (orders, 100, patterns),
        3 => (orders, instruments, 101),
        _ => (255, 99, 100),
    };
    Lists::new(orders, instruments, patterns, random.chance(50))
}

/// Own parts, shared ones and none; the file ends with the last, with other bytes, or with a part that is cut. Other
/// pointers go anywhere, with zeros at the file's end, so that the rows of any pattern end there.
fn put_parts(random: &mut Random, draft: &mut Draft) {
    if random.chance(10) {
        // What would give pans.
        let pans = noise(random, CHANNELS).into_iter().map(|pan| pan | 0x20);
        draft.bytes.extend(pans);
    } else if random.chance(5) && draft.lists.instruments < 9 {
        draft.bytes.extend(noise(random, 4_096));
    }
    let [instruments, patterns] = draft.lists.pointers();
    share(random, draft, &instruments, any_instrument);
    share(random, draft, &patterns, pattern);
    let all = [instruments, patterns].concat();
    match random.below(5) {
        0 => draft.bytes.extend(noise(random, 40)),
        1 | 2 if !all.is_empty() => put_last(random, draft),
        3 => scatter(random, draft, &all),
        _ => {}
    }
}

fn share(random: &mut Random, draft: &mut Draft, pointers: &[usize], part: fn(&mut Random) -> Vec<u8>) {
    let own = if pointers.len() > 9 { 8 } else { 80 };
    for (i, &at) in pointers.iter().enumerate() {
        if i == 0 || random.chance(own) {
            draft.put(at, &part(random));
        } else {
            let shared = le16(&draft.bytes, random.one(&pointers[..i]));
            draft.set16(at, random.weighted(&[(3, shared), (1, 0)]));
        }
    }
}

fn scatter(random: &mut Random, draft: &mut Draft, pointers: &[usize]) {
    draft.bytes.resize(draft.bytes.len() + INSTRUMENT_BYTES, 0);
    for &at in pointers {
        let (there, near) = (le16(&draft.bytes, at), random.between(1, 9).into());
        let any = random.below(draft.paragraphs().into()) as u16;
        draft.set16(at, random.one(&[there, there, any, any, near]));
    }
}

/// A last part that is whole or cut, for any pointer.
fn put_last(random: &mut Random, draft: &mut Draft) {
    let [instruments, patterns] = draft.lists.pointers();
    if patterns.is_empty() || !instruments.is_empty() && random.chance(40) {
        let mut part = any_instrument(random);
        let short = random.one(&[0, 1, 1, 1, 2, 16, 48, 79, INSTRUMENT_BYTES]);
        part.truncate(INSTRUMENT_BYTES - short);
        return draft.put(random.one(&instruments), &part);
    }
    // One entry in the first row or the last.
    let what = random.one(&FLAGS) | random.between(1, 31);
    let rows = random.one(&[0, ROWS - 1]);
    let mut part = vec![0; 2 + rows];
    part.extend(entry(random, what));
    let (any, within) = (random.index(3 + rows), 2 + rows + random.index(part.len() - 1 - rows));
    let whole = part.len() + ROWS - rows;
    part.resize(whole, 0);
    part.truncate(random.weighted(&[(1, any), (1, whole), (4, within)]));
    draft.put(random.one(&patterns), &part);
}

/// Breaks a rule; 4 and 6 are broken elsewhere.
fn break_rule(random: &mut Random, draft: &mut Draft, rule: u8) {
    let length = draft.bytes.len();
    match rule {
        1 => draft.bytes.truncate(random.one(&[0, 1, 51, 95, 96])),
        2 if length >= 48 => draft.bytes[44 + random.index(4)] ^= 1 << random.index(8),
        3 if length >= 48 && random.chance(20) => draft.set16(random.one(&[32, 34, 36]), 0xFFFF),
        5 if length >= 51 => {
            draft.set_levels(random.one(&[[0, 125, 64], [6, 31, 64], [6, 125, 65], [0, 0, 255], [6, 0, 64]]));
        }
        7 | 8 => point_past(random, draft, rule),
        _ => {}
    }
}

/// A pointer past the file: just behind it, or far; cut to 16 bits it may name a whole part.
fn point_past(random: &mut Random, draft: &mut Draft, rule: u8) {
    let pointers = &draft.lists.pointers()[usize::from(rule - 7)];
    let (Some(first), Some(last)) = (pointers.first(), pointers.last()) else {
        return;
    };
    let any = random.one(pointers);
    let at = random.one(&[*first, *last, any]);
    if at + 2 <= draft.bytes.len() {
        let (near, own) = (draft.paragraphs(), le16(&draft.bytes, at) % 0x1000);
        let past = random.one(&[near, near + 1, 0x1001, 0xFFFF, 0x1000 + own, 0xF000 + own]);
        draft.set16(at, past);
    }
}

/// As long as the file's counts need, as far as that goes; to break rule 6, one table of another length.
fn lent(random: &mut Random, file: &[u8], broken: bool) -> Lent {
    let needs = Lists::of(file).map(|lists| lists.needs()).unwrap_or_default();
    let mut lent: Lent = std::array::from_fn(|table| needs[table].min(MOST_LENT[table]));
    if broken {
        let length = &mut lent[random.index(3)];
        let by = random.one(&[1, 1, 1, 20]);
        *length = random.one(&[*length + by, length.saturating_sub(by)]);
    }
    lent
}

/// 80 bytes of noise with a type; the numbers are small in half of them.
fn any_instrument(random: &mut Random) -> Vec<u8> {
    let mut out = noise(random, INSTRUMENT_BYTES);
    out[0] = random.one(&[1, 1, 1, 1, 0, 2, 3, 4, 5, 6, 7, 8, 9, 255, out[0]]);
    for at in [16, 20, 24, 32] {
        if random.chance(50) {
            out[at + 2..at + 4].fill(0);
        }
    }
    out[28] = random.one(&[64, 0, 65, out[28]]);
    out[31] = random.one(&[0, 1, 255, out[31]]);
    out
}

/// Rows with and without entries, each ended by 0, behind a word that nobody reads.
fn pattern(random: &mut Random) -> Vec<u8> {
    let busy = random.one(&[0, 10, 30]);
    let mut out = vec![0; 2];
    for _ in 0..ROWS {
        if random.chance(busy) {
            out.extend(row(random));
        }
        out.push(0);
    }
    let (right, any) = (out.len() as u16, random.number() as u16);
    let word = random.one(&[right, 0, 2, 65_535, any]);
    out[..2].copy_from_slice(&word.to_le_bytes());
    out
}

/// Entries of channels that follow each other, some named again.
fn row(random: &mut Random) -> Vec<u8> {
    let (mut out, mut channel) = (Vec::new(), random.between(0, 31));
    for _ in 0..random.weighted(&[(60, 1), (40, 2), (20, 4), (8, 9), (1, 70)]) {
        let flags = random.one(&FLAGS);
        out.extend(entry(random, flags | channel));
        channel = (channel + random.one(&[0, 1, 1])) % 32;
    }
    out
}

/// An entry with what its first byte says; a first byte of 0 would end the row, and becomes a note on channel 0.
fn entry(random: &mut Random, what: u8) -> Vec<u8> {
    let what = if what == 0 { 0x20 } else { what };
    let mut out = vec![what];
    for _ in 0..follow(what) {
        let any = random.byte();
        out.push(random.weighted(&[(1, 0), (1, 255), (6, any)]));
    }
    out
}
