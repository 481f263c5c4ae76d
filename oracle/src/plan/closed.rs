//! Tables about the edge of a closed tune, each to both functions: chosen ones for each clause of 02, and random ones.

use super::Group;
use crate::calls::Call;
use crate::closed::{B, S};
use crate::generate::closed::{self, Put};
use crate::generate::pitch;
use crate::list::Case;
use crate::random::Random;
use crate::tune::{CELL, CHANNELS, SAMPLE_BYTES, Tune};

const RANDOM: u64 = 16;
/// Commands that are neither B nor S.
const OTHERS: [u8; 27] = [
    0, 1, 3, 4, 5, 6, 7, 8, 9, 10, 11, 12, 13, 14, 15, 16, 17, 18, 20, 21, 22, 23, 24, 25, 26, 27, 255,
];

pub fn groups() -> Vec<Group> {
    let random = (0..RANDOM).map(|seed| closed::tune(&mut Random::new(seed)));
    let both = |tune: Tune| [Call::is_closed(&tune), Call::open_closed(&tune)].map(Case::of).into();
    let chosen = recalls().chain(jumps()).chain(loops()).chain(others()).chain(sizes());
    chosen.chain(together()).chain(random).map(both).collect()
}

fn table(orders: &[u8], patterns: usize, puts: &[Put]) -> Tune {
    closed::table(orders, patterns, puts, pitch::opening())
}

/// S with info 0 in the first cell, in the last one, and in a pattern that no order names.
fn recalls() -> impl Iterator<Item = Tune> {
    let places = [(0, 0, 0), (0, 63, 31), (1, 63, 31), (1, 7, 9)];
    let recall = |(pattern, row, channel)| table(&[0], 2, &[(pattern, row, channel, [S, 0])]);
    places.into_iter().map(recall)
}

/// One B about the places of its pattern: before, at and behind each, where there are two, where none is reached, and where
/// there is none.
fn jumps() -> impl Iterator<Item = Tune> {
    const ORDERS: [&[u8]; 5] = [
        &[0, 0, 1, 0],
        &[0, 1, 0, 0, 1, 0],
        &[0xFF, 1, 0],
        &[0xFE, 1, 0],
        &[0, 0xFE, 0xFF, 2],
    ];
    let near = ORDERS.iter().flat_map(|orders| (0..7).map(|to| (orders.to_vec(), to)));
    let last = [vec![0; 254], vec![1]].concat();
    let far = [253, 254, 255].map(|to| (last.clone(), to));
    let cells = [(0, 0), (63, 31), (7, 9)].into_iter().cycle();
    let jump = |((orders, to), (row, channel)): ((Vec<u8>, u8), _)| table(&orders, 2, &[(1, row, channel, [B, to])]);
    near.chain(far).zip(cells).map(jump)
}

/// Cells with S in pattern 1 by row, channel and info.
type Infos<'a> = &'a [(usize, usize, u8)];

fn with_s(orders: &[u8], infos: Infos) -> Tune {
    let puts: Vec<Put> = infos
        .iter()
        .map(|&(row, channel, info)| (1, row, channel, [S, info]))
        .collect();
    table(orders, 2, &puts)
}

fn loops() -> impl Iterator<Item = Tune> {
    const INFOS: [Infos; 11] = [
        &[(0, 0, 0xB1), (63, 31, 0xB2)],
        &[(8, 31, 0xB2), (9, 0, 0xB2)],
        &[(3, 5, 0xB2)],
        &[(3, 5, 0xB2), (9, 5, 0xB0)],
        &[(3, 5, 0xB0), (9, 5, 0xB0)],
        &[(3, 5, 0xB2), (9, 4, 0xB2), (9, 5, 0xB0)],
        &[(3, 4, 0xB2), (3, 5, 0xB0), (9, 5, 0xB2)],
        &[(3, 5, 0xB2), (9, 4, 0xB0), (9, 5, 0xB2)],
        &[(3, 5, 0xB2), (9, 5, 0xB2), (9, 6, 0xE0)],
        &[(3, 5, 0xB2), (3, 6, 0xB3)],
        &[(3, 5, 0xB2), (9, 5, 0xB2), (20, 5, 0xB2)],
    ];
    let each_p = (1..16).map(|p| with_s(&[0, 1], &[(3, 5, 0xB0 | p), (9, 5, 0xB0 | (16 - p))]));
    let apart = table(&[0, 1], 2, &[(0, 3, 5, [S, 0xB2]), (1, 9, 5, [S, 0xB2])]);
    let named = INFOS.map(|infos| with_s(&[0, 1], infos));
    let unnamed = [INFOS[0], INFOS[2]].map(|infos| with_s(&[0], infos));
    each_p.chain([apart]).chain(named).chain(unnamed)
}

/// Closed tunes with what is nearly S00, B or a loop: other commands with these infos, other infos of S, and the same bytes
/// in other parts of a cell.
fn others() -> impl Iterator<Item = Tune> {
    let with = |info| {
        let rows = [3, 9].map(|row| (row, info));
        let cells = rows
            .into_iter()
            .flat_map(|(row, info)| (0..).zip(OTHERS).map(move |(k, c)| (0, row, k, [c, info])));
        table(&[0], 1, &cells.collect::<Vec<Put>>())
    };
    let specials = (0..16)
        .filter(|high| *high != 0xB)
        .flat_map(|high| [3, 9].map(|row| (row, high)));
    let specials: Vec<Put> = specials
        .map(|(row, high)| (0, row, high, [S, (high as u8) << 4 | 1]))
        .collect();
    let mut shifted = table(&[0], 1, &[]);
    for (cell, bytes) in shifted
        .cells
        .chunks_exact_mut(CELL)
        .zip([[S, 0, 0], [0, S, 0], [B, 0, S], [0, B, 0]])
    {
        cell[..3].copy_from_slice(&bytes);
    }
    [with(0), with(0xB1), table(&[0], 1, &specials), shifted].into_iter()
}

/// No pattern, and the most of all; then the last cell breaks each clause.
fn sizes() -> impl Iterator<Item = Tune> {
    let (orders, last) = ([99; 255], |command, info| (99, 63, CHANNELS - 1, [command, info]));
    let cells = [
        vec![],
        vec![last(S, 0)],
        vec![last(B, 254)],
        vec![last(S, 0xB1), (99, 0, 0, [S, 0xB1])],
    ];
    let most = cells.map(|puts| Tune {
        samples: vec![0; 99 * SAMPLE_BYTES],
        ..table(&orders, 100, &puts)
    });
    [table(&[0xFF], 0, &[])].into_iter().chain(most)
}

/// Two clauses broken, and all three.
fn together() -> impl Iterator<Item = Tune> {
    let (recall, jump, loops) = (
        (0, 4, 4, [S, 0]),
        (0, 5, 5, [B, 0]),
        [3, 9].map(|row| (1, row, 1, [S, 0xB1])),
    );
    let sets = [
        vec![recall, jump],
        [&[recall][..], &loops].concat(),
        [&[jump][..], &loops].concat(),
        [&[recall, jump][..], &loops].concat(),
    ];
    sets.into_iter().map(|puts| table(&[0, 1], 2, &puts))
}
