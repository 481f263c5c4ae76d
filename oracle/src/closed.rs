//! Closed tunes from 02's words: each clause goes through the tables by itself, cell by cell and place by place.

use crate::tune::{ROWS, Tune};

/// Commands as 01 numbers them: A is 1, up to Z 26.
pub const B: u8 = 2;
pub const S: u8 = 19;

/// 02: 'A closed tune has no S with info 0, no B whose target is at or before a place in the orders, reached or not, that
/// names its pattern, and in each pattern at most one row whose last SB has p above 0.'
pub fn is_closed(tune: &Tune) -> bool {
    !recalls(tune) && !jumps_back(tune) && !loops_twice(tune)
}

/// Whether there is an S with info 0.
pub fn recalls(tune: &Tune) -> bool {
    let recall = |cell: &[u8]| cell[3] == S && cell[4] == 0;
    (0..tune.patterns()).any(|pattern| cells(tune, pattern).any(recall))
}

/// Whether there is a B whose target is at or before a place that names its pattern.
pub fn jumps_back(tune: &Tune) -> bool {
    let back = |pattern, cell: &[u8]| {
        let target = usize::from(cell[4]);
        cell[3] == B && places(tune, pattern).any(|place| target <= place)
    };
    (0..tune.patterns()).any(|pattern| cells(tune, pattern).any(|cell| back(pattern, cell)))
}

/// Whether a pattern has two rows whose last SB has p above 0.
pub fn loops_twice(tune: &Tune) -> bool {
    let twice = |pattern| {
        let again = |row| (row + 1..ROWS).any(|later| loops(tune, pattern, later));
        (0..ROWS).any(|row| loops(tune, pattern, row) && again(row))
    };
    (0..tune.patterns()).any(twice)
}

fn loops(tune: &Tune, pattern: usize, row: usize) -> bool {
    let requests = tune
        .row(pattern, row)
        .filter(|cell| cell[3] == S && cell[4] >> 4 == 0xB);
    requests.last().is_some_and(|cell| cell[4] & 15 > 0)
}

fn cells(tune: &Tune, pattern: usize) -> impl Iterator<Item = &[u8]> {
    (0..ROWS).flat_map(move |row| tune.row(pattern, row))
}

/// The places in the orders that name a pattern.
fn places(tune: &Tune, pattern: usize) -> impl Iterator<Item = usize> {
    let orders = tune.orders.iter().enumerate();
    orders.filter_map(move |(place, &order)| (usize::from(order) == pattern).then_some(place))
}
