//! Closed tunes and others: which of 02's clauses a tune breaks, and how near it comes to breaking or keeping one. They are
//! found in one pass over the cells here, apart from `crate::closed`.

use super::Tally;
use crate::calls::Function;
use crate::closed::{B, S};
use crate::list::Case;
use crate::tune::{CELL, CHANNELS, ROWS, Tune};

const NAMES: [&str; 2] = ["is_closed: ", "open_closed: "];
const CLAUSES: [&str; 3] = ["S00", "B", "loops"];

pub fn needs(tally: &mut Tally) {
    for name in NAMES {
        tally.prefix = name;
        tally.family("broken is {}", (0..8).map(broken_name));
        tally.family("two loops, one by SB{}", 1..16);
        tally.family("closed with S{}x twice", (0..16).filter(|high| *high != 0xB));
        let others = (0..=27).chain([255]).filter(|command| ![B, S].contains(command));
        tally.pairs("closed with command {} and info {}", others, &["0", "0xB1 twice"]);
        tally.prefix = "";
    }
}

/// The clauses of a set of bits.
fn broken_name(bits: usize) -> String {
    let of = (0..3).filter(|clause| bits >> clause & 1 == 1);
    let names: Vec<&str> = of.map(|clause| CLAUSES[clause]).collect();
    if names.is_empty() {
        "nothing".to_string()
    } else {
        names.join(" and ")
    }
}

#[derive(Clone, Copy)]
struct Cell {
    pattern: usize,
    row: usize,
    channel: usize,
    command: u8,
    info: u8,
}

impl Cell {
    fn is_recall(&self) -> bool {
        self.command == S && self.info == 0
    }

    fn is_request(&self) -> bool {
        self.command == S && (0xB0..0xC0).contains(&self.info)
    }

    fn is_first(&self) -> bool {
        (self.row, self.channel) == (0, 0)
    }

    fn is_last(&self) -> bool {
        (self.row, self.channel) == (ROWS - 1, CHANNELS - 1)
    }
}

/// All cells of a tune, and what they break.
struct Seen {
    cells: Vec<Cell>,
    /// The SB cells of each row that loops.
    loops: Vec<Vec<Cell>>,
    /// A bit for each clause.
    broken: usize,
}

impl Seen {
    fn new(tune: &Tune) -> Seen {
        let cell = |(at, bytes): (usize, &[u8])| Cell {
            pattern: at / CHANNELS / ROWS,
            row: at / CHANNELS % ROWS,
            channel: at % CHANNELS,
            command: bytes[3],
            info: bytes[4],
        };
        let cells: Vec<Cell> = tune.cells.chunks_exact(CELL).enumerate().map(cell).collect();
        let last = |pattern: usize| tune.orders.iter().rposition(|&order| usize::from(order) == pattern);
        let back = |cell: &Cell| cell.command == B && last(cell.pattern) >= Some(cell.info.into());
        let loops: Vec<Vec<Cell>> = cells.chunks(CHANNELS).filter_map(looping).collect();
        let twice = loops.windows(2).any(|pair| pair[0][0].pattern == pair[1][0].pattern);
        let clauses = [cells.iter().any(Cell::is_recall), cells.iter().any(back), twice];
        let broken = (0..3).map(|clause| usize::from(clauses[clause]) << clause).sum();
        Seen { cells, loops, broken }
    }

    fn all(&self, command: u8) -> Vec<Cell> {
        self.cells
            .iter()
            .filter(|cell| cell.command == command)
            .copied()
            .collect()
    }

    fn is_closed(&self) -> bool {
        self.broken == 0
    }

    /// Whether this clause alone is broken.
    fn breaks(&self, clause: usize) -> bool {
        self.broken == 1 << clause
    }
}

/// The SB cells of a row, where the last has p above 0.
fn looping(row: &[Cell]) -> Option<Vec<Cell>> {
    let requests: Vec<Cell> = row.iter().filter(|cell| cell.is_request()).copied().collect();
    requests.last().is_some_and(|last| last.info > 0xB0).then_some(requests)
}

/// A tune that was not refused, or by rule 14 alone.
pub fn see(tally: &mut Tally, case: &Case) -> Result<(), String> {
    let (tune, function) = (case.call.tune(), case.call.function);
    let seen = Seen::new(&tune);
    tally.prefix = NAMES[usize::from(function == Function::OpenClosed)];
    tally.note(format!("broken is {}", broken_name(seen.broken)));
    see_tables(tally, &tune, &seen);
    see_recall(tally, &tune, &seen);
    see_jump(tally, &tune, &seen);
    see_loops(tally, &tune, &seen);
    see_near(tally, &seen);
    let expected = match function {
        Function::IsClosed => u32::from(seen.is_closed()),
        _ => {
            if seen.is_closed() {
                0
            } else {
                14 << 24
            }
        }
    };
    let sound = case.answer.number == expected;
    sound.then_some(()).ok_or("the answer is not that of 02".to_string())
}

fn is_named(tune: &Tune, pattern: usize) -> bool {
    tune.orders.iter().any(|&order| usize::from(order) == pattern)
}

fn see_tables(tally: &mut Tally, tune: &Tune, seen: &Seen) {
    let most = tune.patterns() == 100 && tune.orders.len() == 255 && tune.sample_count() == 99;
    let in_last = |clause, command| {
        let last = |cell: &Cell| cell.pattern == 99 && cell.is_last() && cell.command == command;
        most && seen.breaks(clause) && seen.cells.iter().any(last)
    };
    tally.anywhere([
        (tune.cells.is_empty(), "no pattern"),
        (
            most && seen.is_closed(),
            "closed, the most patterns, orders and samples",
        ),
        (in_last(0, S), "S00 in the last cell of the most patterns"),
        (in_last(1, B), "B in the last cell of the most patterns"),
        (in_last(2, S), "two loops, one in the last cell of the most patterns"),
    ]);
}

/// S00 where it is the only one, and nothing else is wrong.
fn see_recall(tally: &mut Tally, tune: &Tune, seen: &Seen) {
    let recalls: Vec<&Cell> = seen.cells.iter().filter(|cell| cell.is_recall()).collect();
    let one = recalls.first().filter(|_| recalls.len() == 1 && seen.breaks(0));
    let holds = |fact: fn(&Cell) -> bool| one.is_some_and(|cell| fact(cell));
    tally.anywhere([
        (holds(Cell::is_first), "S00 in a first cell"),
        (holds(Cell::is_last), "S00 in a last cell"),
        (
            one.is_some_and(|cell| is_named(tune, cell.pattern)),
            "S00 in a named pattern",
        ),
        (
            one.is_some_and(|cell| !is_named(tune, cell.pattern)),
            "S00 in an unnamed pattern",
        ),
    ]);
}

/// B where it is the only one, and nothing else is wrong.
fn see_jump(tally: &mut Tally, tune: &Tune, seen: &Seen) {
    let jumps = seen.all(B);
    let one = jumps
        .first()
        .filter(|_| jumps.len() == 1 && (seen.is_closed() || seen.breaks(1)));
    let Some(jump) = one else { return };
    let (to, named) = (usize::from(jump.info), |place: &usize| {
        usize::from(tune.orders[*place]) == jump.pattern
    });
    let places: Vec<usize> = (0..tune.orders.len()).filter(named).collect();
    let (first, last) = (places.first().copied(), places.last().copied());
    let (once, twice, back) = (places.len() == 1, places.len() > 1, seen.breaks(1));
    let behind = |mark| first.is_some_and(|first| tune.orders[..first].contains(&mark));
    tally.anywhere([
        (once && Some(to) == last, "B to its own place"),
        (once && Some(to + 1) == last, "B to the place before"),
        (once && last.is_some_and(|last| to == last + 1), "B to the next place"),
        (twice && Some(to) < first, "B before both places"),
        (twice && Some(to) == first, "B to the first place of two"),
        (twice && first < Some(to) && Some(to) < last, "B between two places"),
        (twice && Some(to) == last, "B to the later place of two"),
        (
            twice && last.is_some_and(|last| to == last + 1),
            "B behind the later place of two",
        ),
        (places.is_empty() && to == 0, "B to 0 in an unnamed pattern"),
        (places.is_empty() && jump.info > 0, "B in an unnamed pattern"),
        (last == Some(254) && to == 253, "B to 253 at place 254"),
        (last == Some(254) && to == 254, "B to 254 at place 254"),
        (last == Some(254) && to == 255, "B to 255 at place 254"),
        (!places.is_empty() && to > tune.orders.len(), "B past the orders"),
        (back && behind(0xFF), "B at a place that is not reached"),
        (back && behind(0xFE), "B at a place behind one that is skipped"),
        (back && jump.is_first(), "B in a first cell"),
        (back && jump.is_last(), "B in a last cell"),
    ]);
}

fn see_loops(tally: &mut Tally, tune: &Tune, seen: &Seen) {
    let (closed, loops) = (seen.is_closed(), &seen.loops[..]);
    see_two_loops(tally, tune, seen, if seen.breaks(2) { loops } else { &[] });
    let single = if closed && loops.len() == 1 {
        loops.first()
    } else {
        None
    };
    // SBs in other rows of its pattern, which do not loop.
    let beside = |cell: &&Cell| single.is_some_and(|row| row[0].pattern == cell.pattern && row[0].row != cell.row);
    let idle = seen.cells.iter().filter(|cell| cell.is_request()).filter(beside);
    let idle: Vec<u8> = idle.map(|cell| cell.info).collect();
    tally.anywhere([
        (single.is_some(), "one loop"),
        (single.is_some_and(|row| row.len() == 2), "one loop of two SBs"),
        (closed && loops.len() > 1, "closed with loops in two patterns"),
        (idle.contains(&0xB0), "closed with a loop and SB0"),
        (
            idle.iter().any(|&info| info > 0xB0),
            "closed with a loop and SBs of which the last is SB0",
        ),
    ]);
}

/// The rows that loop, where two of a pattern do and nothing else is wrong.
fn see_two_loops(tally: &mut Tally, tune: &Tune, seen: &Seen, loops: &[Vec<Cell>]) {
    let two = if loops.len() == 2 { loops } else { &[] };
    let last = |row: &[Cell]| row[row.len() - 1];
    for row in two {
        tally.note(format!("two loops, one by SB{}", last(row).info & 15));
    }
    let rows: Vec<usize> = two.iter().map(|row| row[0].row).collect();
    let named = two.first().map(|row| is_named(tune, row[0].pattern));
    let followed = |row: &[Cell]| {
        let mut specials = seen.cells.iter().filter(|cell| cell.command == S);
        specials.any(|cell| is_behind(cell, &last(row)))
    };
    tally.anywhere([
        (rows == [0, 63], "two loops in the first row and the last"),
        (
            rows.windows(2).any(|pair| pair[0] + 1 == pair[1]),
            "two loops in rows one behind the other",
        ),
        (named == Some(true), "two loops in a named pattern"),
        (named == Some(false), "two loops in an unnamed pattern"),
        (loops.len() == 3, "three loops"),
        (
            two.iter().any(|row| row[0].info == 0xB0),
            "two loops, one behind SB0 in its row",
        ),
        (
            two.iter().any(|row| followed(row)),
            "two loops, another S behind one in its row",
        ),
    ]);
}

fn is_behind(other: &Cell, cell: &Cell) -> bool {
    (other.pattern, other.row) == (cell.pattern, cell.row) && other.channel > cell.channel
}

/// Closed tunes with cells that a slip would take for others.
fn see_near(tally: &mut Tally, seen: &Seen) {
    if !seen.is_closed() {
        return;
    }
    for command in (0..=255).filter(|command| ![B, S].contains(command)) {
        let cells = seen.all(command);
        if cells.iter().any(|cell| cell.info == 0) {
            tally.note(format!("closed with command {command} and info 0"));
        }
        if in_two_rows(&cells, |cell| cell.info == 0xB1) {
            tally.note(format!("closed with command {command} and info 0xB1 twice"));
        }
    }
    let specials = seen.all(S);
    for high in 0..16 {
        if in_two_rows(&specials, |cell| cell.info >> 4 == high && cell.info & 15 > 0) {
            tally.note(format!("closed with S{high}x twice"));
        }
    }
}

/// Whether two rows of one pattern have such cells.
fn in_two_rows(cells: &[Cell], holds: impl Fn(&Cell) -> bool) -> bool {
    let held: Vec<&Cell> = cells.iter().filter(|cell| holds(cell)).collect();
    held.windows(2)
        .any(|pair| pair[0].pattern == pair[1].pattern && pair[0].row < pair[1].row)
}
