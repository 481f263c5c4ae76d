//! The card: what a row's length owes to the remainder, and what becomes of it where a row changes the tempo.

use super::Tally;
use crate::card::unit;
use crate::player::cmd::T_SET_TEMPO;
use crate::state::State;
use crate::tune::{Tune, le32};

/// At speed 255, tempo 32, rate 100,000 and a remainder of 32 or more.
const LONGEST: u32 = 1_992_188;

pub fn see(tally: &mut Tally, tune: &Tune, states: [&State; 2], record: &[u8]) {
    see_length(tally, states, record);
    see_tempo(tally, tune, states, record);
}

/// Of a row without its remainder, in units of 1/(2 * tempo).
fn units(state: &State) -> u32 {
    u32::from(state.speed) * 5 * state.card.rate
}

fn see_length(tally: &mut Tally, [before, entered]: [&State; 2], record: &[u8]) {
    let (units, unit, length) = (units(entered), unit(entered.bpm), le32(record, 20));
    let (held, remainder) = (before.replaying_for_pattern_delay, u32::from(entered.card.remainder));
    let (longer, rest) = (length > units / unit, units + remainder - length * unit);
    tally.both([
        (remainder > 0, "row with a remainder"),
        (remainder > 255, "row with a remainder above 255"),
        (longer, "row longer for its remainder"),
        (longer && rest == 0, "row that uses its remainder up"),
        (
            !longer && rest > remainder && remainder > 0,
            "row that adds to its remainder",
        ),
        (
            held && remainder > 0 && rest != remainder,
            "row held that changes its remainder",
        ),
        (held && longer, "row held longer for its remainder"),
    ]);
    tally.in_states([(length == LONGEST, "row of 1,992,188 micrometres")]);
}

fn see_tempo(tally: &mut Tally, tune: &Tune, [before, entered]: [&State; 2], record: &[u8]) {
    let (held, t, u) = (
        before.replaying_for_pattern_delay,
        u32::from(before.bpm),
        u32::from(entered.bpm),
    );
    let [old, new] = [before, entered].map(|state| u32::from(state.card.remainder));
    let (changes, cut) = (old > 0 && t != u, old * u % t > 0);
    let unscaled = (units(entered) + old) / unit(entered.bpm);
    let cells = tune.row(record[1].into(), record[2].into());
    let tempos = cells.filter(|cell| cell[3] == T_SET_TEMPO && cell[4] >= 32);
    let each = |(remainder, t), cell: &[u8]| (remainder * u32::from(cell[4]) / t, u32::from(cell[4]));
    let (by_each, _) = tempos.fold((old, t), each);
    tally.both([
        (changes && u > t, "remainder under a tempo up"),
        (changes && u < t, "remainder under a tempo down"),
        (changes && !cut, "remainder rescaled exactly"),
        (changes && cut, "remainder rescaled and cut"),
        (unscaled != le32(record, 20), "remainder rescaled before the length"),
        (!held && by_each != new, "remainder cut once under several T"),
    ]);
    tally.in_states([
        (changes && new == 0, "remainder rescaled to 0"),
        (!held && by_each != new && t == u, "remainder kept under several T"),
        (held && by_each != old, "remainder kept under a T of a row held"),
    ]);
}
