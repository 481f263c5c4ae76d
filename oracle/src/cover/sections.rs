//! Sections: where they start and end, their rows, and the same rows in parts.

use super::rows::{self, Seen};
use super::{Tally, card, levels, transposed};
use crate::card::unit;
use crate::list::Case;
use crate::player::Channel;
use crate::player::bridge::{cell, walk};
use crate::rules::MOST_START;
use crate::state::{CHANNEL_BYTES, HEAD_BYTES, NO_VOICE, RELEASED, S_SLOT, State, voice_mark};
use crate::tune::{RECORD_BYTES, Tune, le32};
use std::collections::BTreeSet;

/// A section that was not refused, to be found again in parts: the tables and the state that it was lent, its records and
/// the state behind it.
struct Whole {
    lent: [Vec<u8>; 4],
    n: u32,
    records: Vec<u8>,
    end: Vec<u8>,
}

#[derive(Default)]
pub struct Sections {
    /// The state behind the last Open, or behind the sections from it.
    walked: Vec<u8>,
    wholes: Vec<Whole>,
    /// The sections of as many rows that went on from each other.
    chain: Option<Whole>,
    rows: BTreeSet<Vec<u8>>,
}

impl Sections {
    pub fn opened(&mut self, tally: &mut Tally, case: &Case) {
        let opening = &case.call.slots[3];
        let unclean = opening[3..5].iter().chain(&opening[17..20]).any(|&byte| byte > 1) && opening[5..8] != [0; 3];
        tally.anywhere([
            (true, "open"),
            (unclean, "open with flags above 1 and bytes that are not read"),
        ]);
        self.walked.clone_from(&case.answer.slots[4]);
    }

    /// Walks the section again row by row: its records and its end must be those of the list.
    pub fn section(&mut self, tally: &mut Tally, case: &Case) -> Result<(), String> {
        let (tune, [.., bytes, output]) = (case.call.tune(), &case.call.slots);
        let (from, mut records) = (State::decode(bytes), Vec::new());
        tally.walking = *bytes == self.walked;
        see_start(tally, case, &tune, &from);
        let last = walk(&tune, from, case.call.number as usize, |before, entered, record| {
            records.extend(record);
            see_row(tally, &tune, [before, entered], record);
        });
        let mut expected = output.clone();
        expected[..records.len()].copy_from_slice(&records);
        if expected != case.answer.slots[4] || last.encode() != case.answer.slots[3] {
            return Err("the original walks otherwise".to_string());
        }
        see_given(tally, &tune, &records, &last);
        self.rows.extend(records.chunks_exact(RECORD_BYTES).map(<[u8]>::to_vec));
        self.see_parts(tally, case, records);
        if tally.walking {
            self.walked.clone_from(&case.answer.slots[3]);
        }
        Ok(())
    }

    /// Whether a record is one that a section gave.
    pub fn gave(&self, record: &[u8]) -> bool {
        self.rows.contains(record)
    }

    /// Adds the section to the chain that it goes on from, and looks for a whole one that the chain is.
    fn see_parts(&mut self, tally: &mut Tally, case: &Case, records: Vec<u8>) {
        let [lent @ .., _] = case.call.slots.clone();
        let (n, end) = (case.call.number, case.answer.slots[3].clone());
        let new = Whole { lent, n, records, end };
        let chain = match self.chain.take() {
            Some(mut chain) if chain.n == n && chain.lent[..3] == new.lent[..3] && chain.end == new.lent[3] => {
                let held = new.records.get(3) == Some(&1);
                let remainder = State::decode(&chain.end).card.remainder > 0;
                tally.anywhere([
                    (held && n == 7, "row held at a seam of 7"),
                    (held && n == 1, "row held at a seam of 1"),
                    (remainder && n == 7, "remainder at a seam of 7"),
                    (remainder && n == 1, "remainder at a seam of 1"),
                    (chain.end[9] != 0, "section asked on behind the end"),
                ]);
                chain.records.extend(&new.records);
                chain.end = new.end;
                chain
            }
            _ => new,
        };
        let same = |whole: &&Whole| whole.n > n && whole.lent == chain.lent && whole.end == chain.end;
        let whole = self.wholes.iter().find(same);
        let found = whole.is_some_and(|whole| whole.records == chain.records);
        let odd = found && State::decode(&chain.lent[3]).card.start > 0;
        tally.anywhere([
            (found && n == 7, "section in parts of 7 rows"),
            (found && n == 1, "section in parts of 1 row"),
            (odd && n == 7, "section from a state in parts of 7 rows"),
            (odd && n == 1, "section from a state in parts of 1 row"),
        ]);
        if n > 7 {
            self.wholes.push(chain);
        } else {
            self.chain = Some(chain);
        }
    }
}

fn see_row(tally: &mut Tally, tune: &Tune, [before, entered]: [&State; 2], record: &[u8]) {
    let held = before.replaying_for_pattern_delay;
    let skipped = entered.order_index != before.order_index;
    tally.both([(skipped, "0xFE skipped"), (held, "row held"), (!held, "row not held")]);
    card::see(tally, tune, [before, entered], record);
    let (cells, strikes) = (tune.row(record[1].into(), record[2].into()), le32(record, 16));
    let channels = before.channels.iter().zip(&entered.channels).zip(cells).enumerate();
    let seen = |(i, ((before, after), bytes))| Seen {
        before,
        after,
        cell: cell(bytes),
        struck: strikes >> i & 1 == 1,
    };
    if !held {
        let seen: Vec<Seen> = channels.map(seen).collect();
        rows::see(tally, tune, &seen, [before, entered]);
        transposed::see_row(tally, tune, &seen, entered.amiga_limits);
        levels::see_row(tally, tune, &seen, entered.fast_slides);
    }
}

fn see_start(tally: &mut Tally, case: &Case, tune: &Tune, state: &State) {
    let (rows, n) = (case.answer.number & 0xFFFF, case.call.number);
    let [.., bytes, output] = &case.call.slots;
    let spare = output.len() > n as usize * RECORD_BYTES;
    let edge = [state.row, state.loop_start_row, state.speed, state.bpm] == [63, 63, 1, 32];
    let edge = edge && state.card.remainder == 63 && state.card.start == MOST_START;
    tally.both([(true, "section"), (rows >= 40, "section of 40 rows or more")]);
    tally.anywhere([
        (spare, "output with spare bytes"),
        (!spare, "output without a spare byte"),
        (n == 0, "section of no rows"),
        (state.ended && n > 0, "section from an ended state"),
        (edge, "state at the edge of rule 11"),
        (tune.cells.is_empty(), "tune without a pattern"),
        (bytes[2] == 0 && bytes[3] != 0, "absent loop order with a byte"),
        (bytes[8] > 1 || bytes[13] > 1, "flag above 1"),
        (bytes[15] != 0 && bytes[22] != 0, "spare bytes of a state"),
    ]);
    see_state(tally, tune, state);
    let parts = bytes[HEAD_BYTES..].chunks_exact(CHANNEL_BYTES);
    for (channel, part) in state.channels.iter().zip(parts) {
        see_channel(tally, channel, part);
    }
}

fn see_state(tally: &mut Tally, tune: &Tune, state: &State) {
    let (held, hold) = (state.replaying_for_pattern_delay, state.pattern_delay_remaining > 0);
    let (order, owner) = (state.order_index, state.loop_pattern_order);
    let (limits, slides) = (state.amiga_limits, state.fast_slides);
    let (card, last) = (&state.card, unit(state.bpm) - 1);
    tally.in_states([
        (state.loop_count == Some(0), "loop count 0"),
        (owner.is_none(), "loop order absent"),
        (owner.is_some_and(|owner| owner != order), "loop order another"),
        (hold && !held, "hold without held"),
        (held && !hold, "held without hold"),
        (usize::from(order) >= tune.orders.len(), "order past the list"),
        (state.speed == 1, "speed 1"),
        (state.speed == 255, "speed 255"),
        (state.bpm == 32, "tempo 32"),
        (card.start == MOST_START, "start 2^62"),
        (card.rate == 1, "rate 1"),
        (card.rate == 100_000, "rate 100000"),
        (u32::from(card.remainder) == last, "remainder 2 * tempo - 1"),
        (tune.orders.len() == 1, "tune of 1 order"),
        (tune.orders.len() == 255, "tune of 255 orders"),
        (tune.samples.is_empty(), "tune without samples"),
        (tune.sample_count() == 99, "tune of 99 samples"),
        (state.global_volume > 64, "global volume above 64"),
        (limits && slides, "Amiga limits on, fast slides on"),
        (limits && !slides, "Amiga limits on, fast slides off"),
        (!limits && slides, "Amiga limits off, fast slides on"),
        (!limits && !slides, "Amiga limits off, fast slides off"),
    ]);
}

/// A channel of the state that a section starts from, and its bytes.
fn see_channel(tally: &mut Tally, ch: &Channel, part: &[u8]) {
    let (frequency, voice) = (ch.frequency, voice_mark(ch));
    let nan = ch.sample_pos.is_nan();
    let kept = part[48 + S_SLOT] != 0 && part[75..80] != [0; 5];
    let other_bits = nan && part[8..16] != ch.sample_pos.to_le_bytes();
    tally.in_states([
        (frequency == f32::INFINITY, "frequency infinite"),
        (frequency == f32::NEG_INFINITY, "frequency minus infinite"),
        (frequency.to_bits() == 1 << 31, "frequency -0.0"),
        (frequency.is_subnormal(), "frequency subnormal"),
        (frequency < 0.0 && frequency.is_finite(), "frequency negative"),
        (ch.volume == 63 && !ch.adlib, "volume 63 on PCM"),
        (ch.volume == 64 && ch.adlib, "volume 64 on AdLib"),
        (ch.pan == 15, "pan 15"),
        (ch.stored_volume > 64, "stored volume above 64"),
        (ch.voice_global_vol > 64, "voice's global volume above 64"),
        (ch.last_note == 0xFE, "last note 0xFE"),
        (voice != NO_VOICE && !ch.adlib, "voice on a channel that is not AdLib"),
        (voice == RELEASED, "voice released before"),
    ]);
    tally.anywhere([
        (nan, "sample position not a number"),
        (other_bits, "sample position not a number, other bits"),
        (part[19] > 1 || part[30] > 1, "flag above 1"),
        (part[31] > 3 && part[32] > 3, "waveform above 3"),
        (part[25] == 0 && part[26..30] != [0; 4], "absent delay with bytes"),
        (part[46..48] != [0; 2], "spare bytes of a channel"),
        (kept, "memory slots that nobody reads"),
    ]);
}

/// The state behind a section, how the tune has ended there, and the records.
fn see_given(tally: &mut Tally, tune: &Tune, records: &[u8], last: &State) {
    let (ended, rows) = (last.ended, !records.is_empty());
    tally.anywhere([
        (ended, "section that ends the tune"),
        (ended && rows, "section that ends the tune behind rows"),
        (!ended && rows, "section that does not end the tune"),
        (last.card.start > MOST_START, "start left above 2^62"),
        (records.get(3) == Some(&1), "row held first"),
    ]);
    let named = tune.orders.get(usize::from(last.order_index));
    let missing = named.is_some_and(|&order| order != 0xFF);
    tally.both([
        (ended && named.is_none(), "ended past the list"),
        (ended && named == Some(&0xFF), "ended at 0xFF"),
        (ended && missing, "ended at a missing pattern"),
    ]);
    let records: Vec<&[u8]> = records.chunks_exact(RECORD_BYTES).collect();
    for record in &records {
        let strikes = le32(record, 16).count_ones();
        let has = |holds: fn(&[u8]) -> bool| record[24..].chunks_exact(16).any(holds);
        tally.anywhere([
            (strikes == 0, "no strike"),
            (strikes > 1, "several strikes"),
            (has(|channel| channel[15] == 1), "voice keyed in a record"),
            (has(|channel| channel[15] == 2), "voice released in a record"),
            (has(|channel| channel[13] != 0), "delay"),
        ]);
    }
    records.windows(2).for_each(|pair| see_pair(tally, pair[0], pair[1]));
}

/// Two rows, one behind the other.
fn see_pair(tally: &mut Tally, before: &[u8], after: &[u8]) {
    let follows = after[2] == before[2] + 1 && after[0] == before[0];
    let turned = before[2] == 63 && after[2] == 0 && after[0] > before[0];
    let again = after[2] == before[2] && after[0] == before[0];
    tally.anywhere([
        (again && after[3] == 0, "row again, not held"),
        (!follows && !turned && !again, "row behind a jump"),
        (before[4] != after[4], "speed changed"),
        (before[5] != after[5], "tempo changed"),
        (before[6] != after[6], "global volume changed"),
    ]);
}
