//! Where a tune without an end begins to repeat.

use crate::{RECORD_BYTES, Record, Refusal, State, Tune};

/// Where the rows of a tune begin to come again, in the same order for ever. It is certain, for the path was found to stand
/// as it stood before, and it reads nothing else than where it stands and the tables. A row is the same where its order,
/// pattern, row, hold, speed and tempo are; what the channels do in it may differ from turn to turn, and its length by one.
#[derive(Clone, Copy, Debug, PartialEq, Eq, Hash)]
pub struct Repeat {
    /// How many rows come before the first that only repeats.
    pub rows: u64,
    /// How far these rows go on the card, in micrometres: the start of the row that repeats.
    pub length: u64,
    /// Which of the rows it repeats, counted from 0.
    pub back_to: u64,
    /// That row's index in the orders.
    pub order: u8,
    /// That row's pattern.
    pub pattern: u8,
    /// That row's number in its pattern.
    pub row: u8,
    /// Where that row starts on the card the first time, in micrometres.
    pub start: u64,
}

/// Finds the turn of the path's states, and then the first rows of which all that follow are turns: the state in which a
/// turn is entered the first time mostly differs from all later ones in things that no row of it reads, such as the order
/// that it came from or an S info.
pub(crate) fn first_repeat(tune: &Tune, state: &State, most_rows: u64) -> Result<Option<Repeat>, Refusal> {
    let first = Walker {
        tune,
        state: state.clone(),
        rows: 0,
    };
    let Some((within, turn)) = turn_of_states(&first, most_rows)? else {
        return Ok(None);
    };
    let turn = turn_of_rows(&within, turn)?;
    let (mut walker, mut ahead) = (first.clone(), first.ahead(turn)?);
    let mut found = None;
    while walker.rows <= within.rows {
        let (back_to, rows) = (walker.rows, ahead.rows);
        let (record, again) = (walker.next_row()?, ahead.next_row()?);
        if !same_row(&record, &again) {
            found = None;
            continue;
        }
        found.get_or_insert(Repeat {
            rows,
            length: again.start(),
            back_to,
            order: record.order(),
            pattern: record.pattern(),
            row: record.row(),
            start: record.start(),
        });
    }
    Ok(found.filter(|repeat| repeat.rows <= most_rows))
}

/// A walker in the turn of the path's states, and the rows of that turn; none where the tune ends, or where the turn and the
/// rows before it have more than twice `most_rows`.
///
/// This is Brent's way: it keeps two states, where a set of all that were seen would grow with the rows. The mark moves up
/// to the walker behind 1, 3, 7, 15 rows and so on. The first mark that is in the turn, with the next at least a turn away,
/// is less than twice the rows of the turn and of those before it, so the walker comes back to it within thrice.
fn turn_of_states<'t>(first: &Walker<'t>, most_rows: u64) -> Result<Option<(Walker<'t>, u64)>, Refusal> {
    let mut mark = first.clone();
    let mut walker = first.clone();
    let mut next_mark = 1;
    while walker.rows <= most_rows.saturating_mul(6) {
        if walker.step()?.is_none() || walker.state.ended() {
            return Ok(None);
        }
        if walker.state.path() == mark.state.path() {
            return Ok(Some((mark.clone(), walker.rows - mark.rows)));
        }
        if walker.rows == next_mark {
            mark = walker.clone();
            next_mark = 2 * next_mark + 1;
        }
    }
    Ok(None)
}

/// The shortest turn of the rows, from a walker in a turn of the states: a part of that turn that divides it.
fn turn_of_rows(within: &Walker, turn: u64) -> Result<u64, Refusal> {
    for part in (1..turn).filter(|part| turn.is_multiple_of(*part)) {
        let (mut walker, mut ahead) = (within.clone(), within.ahead(part)?);
        let last = within.rows + turn;
        while walker.rows < last && same_row(&walker.next_row()?, &ahead.next_row()?) {}
        if walker.rows == last {
            return Ok(part);
        }
    }
    Ok(turn)
}

/// Whether order, pattern, row, held, speed and tempo are equal: the path's part of a record but for its place on the card.
fn same_row(one: &Record, other: &Record) -> bool {
    one.as_bytes()[..6] == other.as_bytes()[..6]
}

/// Goes row by row, and counts.
#[derive(Clone)]
struct Walker<'t> {
    tune: &'t Tune,
    state: State,
    rows: u64,
}

impl Walker<'_> {
    /// The row to come, or none where the tune ends.
    fn step(&mut self) -> Result<Option<Record>, Refusal> {
        let mut output = [0; RECORD_BYTES];
        let given = self.tune.section(&mut self.state, 1, &mut output)?;
        self.rows += given.rows as u64;
        Ok((given.rows == 1).then(|| Record::from_bytes(&output)))
    }

    fn next_row(&mut self) -> Result<Record, Refusal> {
        Ok(self.step()?.expect("a tune that comes to a turn has no end"))
    }

    fn ahead(&self, rows: u64) -> Result<Self, Refusal> {
        let mut walker = self.clone();
        for _ in 0..rows {
            walker.step()?;
        }
        Ok(walker)
    }
}
