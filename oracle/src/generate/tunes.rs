//! Tunes: orders, samples and opening values, and a tune's leanings.

use super::{cells, noise, unset};
use crate::random::Random;
use crate::tune::{CHANNELS, Opening, SAMPLE_BYTES, TRANSPOSITIONS, Tune};

/// What a tune is made for.
#[derive(Clone, Copy, PartialEq, Eq)]
pub enum Purpose {
    /// Single visits from odd states: up to four busy patterns.
    Visits,
    /// Walks from Open: one or two patterns, jumps rare enough to walk on.
    Walks,
}

/// A tune's leanings, drawn first.
pub struct Style {
    pub walks: bool,
    pub patterns: usize,
    pub samples: usize,
    pub orders: usize,
    /// Rows in a hundred on which path effects meet.
    pub path: u64,
    /// Of a hundred free cells drawn as B, C, SB or SE, those that stay it.
    pub free: u64,
}

/// The tune of a seed; `random` is that seed's, so that states can follow.
pub fn tune(random: &mut Random, purpose: Purpose, seed: u64) -> Tune {
    let style = style(random, purpose, seed);
    Tune {
        orders: orders(random, &style),
        samples: (0..style.samples).flat_map(|_| sample(random)).collect(),
        cells: cells::cells(random, &style),
        opening: Opening::decode(&opening(random)),
    }
}

/// A third of the tunes is made for walks.
pub fn any_tune(random: &mut Random, seed: u64) -> Tune {
    let purposes = [Purpose::Walks, Purpose::Visits, Purpose::Visits];
    tune(random, purposes[seed as usize % 3], seed)
}

/// The seed's remainder by 8 sees to the extreme sizes.
fn style(random: &mut Random, purpose: Purpose, seed: u64) -> Style {
    let walks = purpose == Purpose::Walks;
    let most = random.one(if walks { &[2, 3, 6] } else { &[6, 60, 250] });
    let (orders, samples) = (1 + random.index(most), random.one(&[6, 10, 14]));
    Style {
        walks,
        patterns: 1 + random.index(if walks { 2 } else { 4 }),
        samples: match seed % 8 {
            2 => 0,
            3 => 99,
            _ => samples,
        },
        orders: match seed % 8 {
            0 if !walks => 1,
            1 if !walks => 255,
            _ => orders,
        },
        path: random.one(if walks { &[8, 16, 24] } else { &[10, 50, 100] }),
        free: random.one(if walks { &[0, 0, 1] } else { &[2, 15, 100] }),
    }
}

/// The first names a pattern; the others name one too, are skipped, or are marks and missing patterns, which stand at a
/// walk's end alone.
fn orders(random: &mut Random, style: &Style) -> Vec<u8> {
    let (missing, skipped) = (style.patterns as u8, random.one(&[10, 20, 60]));
    let mut out = vec![random.index(style.patterns) as u8];
    while out.len() < style.orders {
        let (there, strange) = (random.index(style.patterns) as u8, random.one(&[0xFF, missing, 0xFD]));
        let order = if style.walks || random.chance(85) {
            there
        } else {
            strange
        };
        out.push(if random.chance(skipped) { 0xFE } else { order });
    }
    if style.walks && random.chance(70) {
        out.extend([0xFE, random.one(&[0xFF, missing, 99, 0xFD]), 0]);
    }
    out
}

pub fn sample(random: &mut Random) -> [u8; SAMPLE_BYTES] {
    let (adlib, any) = (random.between(2, 7), random.byte());
    let mut out = [0; SAMPLE_BYTES];
    out[0] = random.weighted(&[(7, 1), (4, adlib), (1, 0), (1, any)]);
    out[1] = random.weighted(&[(6, any % 65), (2, 64), (1, 65), (1, 255), (2, any)]);
    out[2] = random.weighted(&[(2, 0), (4, 1), (2, any)]);
    out[3] = random.weighted(&[(3, 0), (1, any)]);
    let [length, loop_start, loop_end] = stretch(random);
    let numbers = [length, loop_start, loop_end, c5_speed(random)];
    out[4..].copy_from_slice(numbers.map(u32::to_le_bytes).as_flattened());
    out
}

/// Length, loop start and loop end: loops usable, empty, turned round, or past the end.
fn stretch(random: &mut Random) -> [u32; 3] {
    let most = random.weighted(&[(1, 1), (3, 300), (3, 20_000), (2, 65_535), (1, u64::from(u32::MAX))]);
    let [one, other, length] = [(); 3].map(|_| random.below(most) as u32);
    let (start, length) = (one.min(length), one.max(length));
    let near = start.saturating_add(1 + other % 400).min(length);
    let end = random.weighted(&[
        (4, other),
        (3, length),
        (3, near),
        (1, start),
        (1, length.saturating_add(1)),
    ]);
    [length, start, end]
}

/// From about 229 million up a period becomes 0, first for the highest notes.
fn c5_speed(random: &mut Random) -> u32 {
    let (usual, small) = (4_000 + random.below(44_000), random.below(4_000));
    let (fast, huge) = (random.below(250_000_000), random.below(1 << 32));
    let most = u64::from(u32::MAX);
    let often = [(6, 8_363), (8, usual), (2, small)];
    let rare = [fast, huge, 0, 1, most].map(|speed| (1, speed));
    random.weighted(&[&often[..], &rare].concat()) as u32
}

/// Opening values said in an unusual way: flags above 1, noise in bytes that are not read.
pub fn opening(random: &mut Random) -> Vec<u8> {
    let mut out = noise(random, TRANSPOSITIONS);
    out[0] = random.weighted(&[(4, 6), (2, 3), (2, out[0].max(1)), (1, 1), (1, 255)]);
    out[1] = random.weighted(&[(4, 125), (3, out[1].max(32)), (1, 32), (1, 255)]);
    out[2] = random.weighted(&[(3, 64), (2, out[2] % 65), (1, 0)]);
    unset(random, &mut out, &[(3, 60), (4, 50)]);
    out[8..12].copy_from_slice(&rate(random).to_le_bytes());
    for part in out[16..].chunks_exact_mut(4) {
        part[0] = random.weighted(&[(2, 3), (2, 12), (1, 8), (3, part[0] % 16)]);
        unset(random, part, &[(1, 80), (2, 60), (3, 70)]);
    }
    out.extend(transpositions(random.apart()));
    out
}

/// A byte for each channel: half of the time all are 0, where the original is compared. Drawn apart, they leave the tunes of
/// a seed, which bench/ times, as they are.
pub fn transpositions(mut random: Random) -> [u8; CHANNELS] {
    if random.chance(50) {
        return [0; CHANNELS];
    }
    [(); CHANNELS].map(|()| {
        let any = random.between(0, 48) as i8 - 24;
        random.weighted(&[(6, any), (1, -24), (1, 24), (2, 0)]) as u8
    })
}

pub fn rate(random: &mut Random) -> u32 {
    let any = 1 + random.below(100_000) as u32;
    random.weighted(&[(4, 60_000), (3, any), (1, 1), (1, 100_000)])
}
