//! Small tables about the edge between closed tunes and others: few cells, most of them with B or S.

use super::tunes::opening;
use super::{noise, tunes};
use crate::closed::{B, S};
use crate::random::Random;
use crate::tune::{CELL, CHANNELS, EMPTY_CELL, Opening, PATTERN_BYTES, ROW_BYTES, ROWS, Tune};

/// Command and info of a cell, by its pattern, row and channel.
pub type Put = (usize, usize, usize, [u8; 2]);

const C: u8 = 3;
/// A, D, R, T and U: no B, C or S.
const OTHERS: [u8; 5] = [1, 4, 18, 20, 21];

/// A tune of so many empty patterns with these cells.
pub fn table(orders: &[u8], patterns: usize, puts: &[Put], opening: Opening) -> Tune {
    let mut cells = EMPTY_CELL.repeat(patterns * PATTERN_BYTES / CELL);
    for &(pattern, row, channel, put) in puts {
        cells[at(pattern, row, channel) + 3..][..2].copy_from_slice(&put);
    }
    Tune {
        orders: orders.to_vec(),
        samples: Vec::new(),
        cells,
        opening,
    }
}

fn at(pattern: usize, row: usize, channel: usize) -> usize {
    pattern * PATTERN_BYTES + row * ROW_BYTES + channel * CELL
}

/// 1 to 4 patterns and 1 to 12 orders, now and then 255.
pub fn tune(random: &mut Random) -> Tune {
    let (patterns, few) = (1 + random.index(4), 1 + random.index(12));
    let count = random.weighted(&[(30, few), (1, 255)]);
    let orders: Vec<u8> = (0..count).map(|_| order(random, patterns)).collect();
    let opening = Opening::decode(&opening(random));
    let mut tune = table(&orders, patterns, &[], opening);
    tune.samples = (0..random.index(3)).flat_map(|_| tunes::sample(random)).collect();
    for pattern in 0..patterns {
        fill(random, &mut tune, pattern);
    }
    tune
}

fn order(random: &mut Random, patterns: usize) -> u8 {
    let (named, any) = (random.index(patterns) as u8, random.byte());
    random.weighted(&[(16, named), (2, 0xFE), (1, 0xFF), (1, patterns as u8), (1, any)])
}

/// A few cells of a pattern, its SBs in two rows; now and then each row is held.
fn fill(random: &mut Random, tune: &mut Tune, pattern: usize) {
    if random.chance(10) {
        let info = random.one(&[0xE1, 0xEF]);
        for row in 0..ROWS {
            tune.cells[at(pattern, row, 3) + 3..][..2].copy_from_slice(&[S, info]);
        }
    }
    let any = [(); 2].map(|_| random.index(ROWS));
    let rows = [any[0], random.one(&[any[1], 0, ROWS - 1])];
    for _ in 0..random.one(&[0, 1, 2, 4, 8]) {
        let cell = steering(random, &tune.orders, pattern);
        let row = match cell {
            [S, 0xB0..0xC0] => random.weighted(&[(2, rows[0]), (1, rows[1])]),
            _ => random.index(ROWS),
        };
        let at = at(pattern, row, random.index(CHANNELS));
        let rest = noise(random, 3).into_iter();
        let rest = rest.map(|any| random.one(&[any, B, S, 0xB1, 0])).collect::<Vec<u8>>();
        tune.cells[at..at + 3].copy_from_slice(&rest);
        tune.cells[at + 3..at + CELL].copy_from_slice(&cell);
    }
}

/// A command and its info: jumps about the pattern's places, loops, holds, now and then a recall.
fn steering(random: &mut Random, orders: &[u8], pattern: usize) -> [u8; 2] {
    let (low, any) = (random.between(0, 15), random.byte());
    let p = random.weighted(&[(4, 0), (2, 1), (2, 2), (1, 15), (2, low)]);
    let place = place(random, orders, pattern);
    let (break_row, other) = (random.one(&[0, 0x10, 0x32, 0x63]), random.one(&OTHERS));
    random.weighted(&[
        (6, [B, place]),
        (8, [S, 0xB0 | p]),
        (6, [S, 0xE0 | low]),
        (2, [S, any.max(1)]),
        (1, [S, 0]),
        (2, [C, break_row]),
        (2, [other, any]),
        (1, [other, 0]),
        (1, [other, 0xB1]),
    ])
}

/// A B's target: mostly behind the last place of its pattern, else at one, beside one or anywhere.
fn place(random: &mut Random, orders: &[u8], pattern: usize) -> u8 {
    let names = |place: &usize| usize::from(orders[*place]) == pattern;
    let places: Vec<usize> = (0..orders.len()).filter(names).collect();
    let (Some(&last), any) = (places.last(), random.byte()) else {
        return random.one(&[0, 0, 1, 255]);
    };
    let one = random.one(&places);
    let near = [one, one + 1, one.saturating_sub(1), last, 0].map(|place| (1, place));
    let far = [(12, last + 1), (4, last + 2), (2, 255), (1, any.into())];
    random.weighted(&[&near[..], &far].concat()).min(255) as u8
}
