//! The tunes that are timed: each plays its orders once, thousands of rows.

use oracle::generate::{self, Purpose};
use oracle::random::Random;
use oracle::tune::{CELL, CHANNELS, EMPTY_CELL, PATTERN_BYTES, ROW_BYTES, SAMPLE_BYTES, Tune};

const PATTERNS: usize = 4;
const ORDERS: usize = 255;
/// Each kind has a tune for each of these.
pub const SEEDS: [u64; 3] = [1, 2, 3];
/// Commands that leave the path alone: D to R, then U to Z.
const COMMANDS: [u8; 21] = [
    4, 5, 6, 7, 8, 9, 10, 11, 12, 13, 14, 15, 16, 17, 18, 21, 22, 23, 24, 25, 26,
];

pub struct Kind {
    pub name: &'static str,
    /// Cells of a row that are not empty.
    cells: usize,
    amiga_limits: bool,
    fast_slides: bool,
    /// AdLib channels, and every second instrument AdLib.
    adlib: bool,
}

const PLAIN: Kind = Kind {
    name: "",
    cells: CHANNELS,
    amiga_limits: false,
    fast_slides: false,
    adlib: false,
};

#[rustfmt::skip]
pub const KINDS: [Kind; 7] = [
    Kind { name: "dense", ..PLAIN },
    Kind { name: "half", cells: CHANNELS / 2, ..PLAIN },
    Kind { name: "sparse", cells: 2, ..PLAIN },
    Kind { name: "empty", cells: 0, ..PLAIN },
    Kind { name: "limits", amiga_limits: true, ..PLAIN },
    Kind { name: "slides", fast_slides: true, ..PLAIN },
    Kind { name: "adlib", adlib: true, ..PLAIN },
];

/// The kinds whose files differ in size: the others are read as `dense` is.
pub const FILES: &[Kind] = KINDS.split_at(4).0;

impl Kind {
    pub fn named(name: &str) -> Option<&'static Kind> {
        KINDS.iter().find(|kind| kind.name == name)
    }

    pub fn tunes(&self) -> [Tune; SEEDS.len()] {
        SEEDS.map(|seed| self.tune(seed))
    }

    /// So many cells in each row, half of them with a command.
    pub fn tune(&self, seed: u64) -> Tune {
        let random = &mut Random::new(seed);
        let mut tune = generate::tune(random, Purpose::Visits, 4);
        tune.orders = (0..ORDERS).map(|i| (i % PATTERNS) as u8).collect();
        tune.cells = EMPTY_CELL.repeat(PATTERNS * PATTERN_BYTES / CELL);
        for row in tune.cells.chunks_exact_mut(ROW_BYTES) {
            let first = random.index(CHANNELS);
            for i in 0..self.cells {
                let channel = (first + i) % CHANNELS;
                row[channel * CELL..][..CELL].copy_from_slice(&cell(random));
            }
        }
        for (i, sample) in tune.samples.chunks_exact_mut(SAMPLE_BYTES).enumerate() {
            sample[0] = if self.adlib && i % 2 == 1 { 2 } else { 1 };
        }
        tune.opening.rate = 60_000;
        tune.opening.amiga_limits = self.amiga_limits;
        tune.opening.fast_slides = self.fast_slides;
        for channel in &mut tune.opening.channels {
            channel.adlib = self.adlib;
            // As a file has it.
            channel.transposition = 0;
        }
        tune
    }
}

fn cell(random: &mut Random) -> [u8; CELL] {
    let note = random.between(1, 7) << 4 | random.between(0, 11);
    let volume = if random.chance(50) { 255 } else { random.between(0, 64) };
    let effect = random.chance(50);
    let (command, info) = (random.one(&COMMANDS), random.byte());
    [
        random.weighted(&[(3, note), (1, 255)]),
        random.between(0, 10),
        volume,
        if effect { command } else { 0 },
        if effect { info } else { 0 },
    ]
}
