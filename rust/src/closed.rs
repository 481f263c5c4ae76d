//! What keeps a tune from being closed. Plain Rust: nothing is proved of it, and [`Tune::is_closed`] is what decides.

use crate::{CHANNELS, PATTERN_BYTES, Tune};
use std::fmt;

const CELL_BYTES: usize = 5;
const ROW_BYTES: usize = CHANNELS * CELL_BYTES;
/// Commands are numbered from A, which is 1.
const B: u8 = 2;
const S: u8 = 19;

/// A cell by where it stands, all counted from 0.
#[derive(Clone, Copy, Debug, PartialEq, Eq, Hash)]
pub struct CellPlace {
    /// Its pattern.
    pub pattern: u8,
    /// Its row in the pattern.
    pub row: u8,
    /// Its channel.
    pub channel: u8,
}

/// What keeps a tune from being closed: [`Tune::first_breach`].
#[derive(Clone, Copy, Debug, PartialEq, Eq, Hash)]
pub enum Breach {
    /// A cell with S and info 0, which does again what its channel's last S did.
    Recall(CellPlace),
    /// A cell with B that may go back to where its pattern is played again.
    JumpBack {
        /// The cell.
        cell: CellPlace,
        /// The place in the orders that it jumps to.
        target: u8,
        /// The first place at or behind the target that names the cell's pattern, reached or not.
        order: u8,
    },
    /// A pattern with two rows that loop: the last SB of each has p above 0.
    TwoLoops {
        /// The pattern.
        pattern: u8,
        /// Its first two such rows.
        rows: [u8; 2],
    },
}

impl fmt::Display for CellPlace {
    fn fmt(&self, f: &mut fmt::Formatter<'_>) -> fmt::Result {
        write!(
            f,
            "pattern {}, row {}, channel {}",
            self.pattern, self.row, self.channel
        )
    }
}

impl fmt::Display for Breach {
    fn fmt(&self, f: &mut fmt::Formatter<'_>) -> fmt::Result {
        match self {
            Breach::Recall(cell) => write!(f, "S00 in {cell}"),
            Breach::JumpBack { cell, target, order } => write!(
                f,
                "B{target:02X} in {cell} jumps to order {target}, and order {order} names that pattern"
            ),
            Breach::TwoLoops { pattern, rows } => {
                write!(
                    f,
                    "rows {} and {} of pattern {pattern} both loop (SBx)",
                    rows[0], rows[1]
                )
            }
        }
    }
}

pub(crate) fn first_breach(tune: &Tune) -> Option<Breach> {
    first_recall(tune)
        .or_else(|| first_jump_back(tune))
        .or_else(|| first_two_loops(tune))
}

/// The cells by pattern, row and channel, with command and info.
fn cells(tune: &Tune) -> impl Iterator<Item = (CellPlace, u8, u8)> {
    let patterns = tune.cells.chunks_exact(PATTERN_BYTES).zip(0..=u8::MAX);
    patterns.flat_map(|(cells, pattern)| {
        cells.chunks_exact(CELL_BYTES).enumerate().map(move |(at, cell)| {
            let (row, channel) = ((at / CHANNELS) as u8, (at % CHANNELS) as u8);
            (CellPlace { pattern, row, channel }, cell[3], cell[4])
        })
    })
}

fn first_recall(tune: &Tune) -> Option<Breach> {
    let mut cells = cells(tune);
    cells.find_map(|(cell, command, info)| (command == S && info == 0).then_some(Breach::Recall(cell)))
}

fn first_jump_back(tune: &Tune) -> Option<Breach> {
    cells(tune)
        .filter(|&(_, command, _)| command == B)
        .find_map(|(cell, _, target)| {
            let mut places = tune.orders.iter().zip(0..=u8::MAX).skip(target.into());
            let order = places.find_map(|(&named, order)| (named == cell.pattern).then_some(order))?;
            Some(Breach::JumpBack { cell, target, order })
        })
}

fn first_two_loops(tune: &Tune) -> Option<Breach> {
    let mut patterns = tune.cells.chunks_exact(PATTERN_BYTES).zip(0..=u8::MAX);
    patterns.find_map(|(cells, pattern)| {
        let rows = cells.chunks_exact(ROW_BYTES).zip(0..);
        let mut looping = rows.filter_map(|(row, number)| loops(row).then_some(number));
        let rows = [looping.next()?, looping.next()?];
        Some(Breach::TwoLoops { pattern, rows })
    })
}

/// Whether the last SB of a row has p above 0.
fn loops(row: &[u8]) -> bool {
    let mut from_last = row.chunks_exact(CELL_BYTES).rev();
    let last = from_last.find(|cell| cell[3] == S && cell[4] >> 4 == 0xB);
    last.is_some_and(|cell| cell[4] & 15 > 0)
}
