//! Rules 9 to 17 written from 01 and 02 alone, and 255 from the border: the original refuses nothing.

use crate::calls::{Call, Function};
use crate::card::unit;
use crate::closed;
use crate::columns::{LEAST_RECORDS, MOST_RECORDS};
use crate::head::{INTERRUPT, LATE, LOAD, LOADED, REGISTERS_BYTES, STATUS};
use crate::levels::{MOST_PAN, most_volume};
use crate::state::{STATE_BYTES, State};
use crate::transposed::SPAN;
use crate::tune::{OPENING_BYTES, Opening, PATTERN_BYTES, RECORD_BYTES, SAMPLE_BYTES, Tune};

pub const MOST_START: u64 = 1 << 62;
pub const WRONG_LENGTH: u8 = 255;
pub const COUNTS_BYTES: usize = 12;
/// What Strikes and Line need as output.
pub const STRIKES_BYTES: usize = 32;
pub const LINE_BYTES: usize = 64;

/// No room of the list has the bytes that so many need.
pub const ROWS_ABOVE: &str = "n above 65,535";
pub const RECORDS_ABOVE: &str = "m above 65,535";

/// What 02 adds to rule 11.
pub const REMAINDER: &str = "remainder of 2 * tempo or more";

/// A way to break a rule, with the rule's number and whether it is broken so.
pub type Fact = (u8, &'static str, bool);

/// What is broken, in the order in which the rules are asked.
pub fn broken(call: &Call) -> Vec<(u8, &'static str)> {
    let broken = facts(call).into_iter().filter(|fact| fact.2);
    broken.map(|(rule, what, _)| (rule, what)).collect()
}

/// All that is asked of a call, but for rules 1 to 8, which the reader asks.
pub fn facts(call: &Call) -> Vec<Fact> {
    let [a, b, c, d, e] = &call.slots;
    match call.function {
        Function::Measure => length(b, COUNTS_BYTES, "counts"),
        Function::Read => length(e, OPENING_BYTES, "opening"),
        Function::Open => open(call),
        Function::IsClosed => tables(a, b, c),
        Function::OpenClosed => [open(call), not_closed(&call.tune())].concat(),
        Function::Section => {
            let state = [state(d), levels(d)].concat();
            let lengths = length(d, STATE_BYTES, "state");
            [lengths, tables(a, b, c), state, output(call.number, e)].concat()
        }
        Function::Strikes => record(a, b, STRIKES_BYTES),
        Function::Line => record(a, b, LINE_BYTES),
        Function::HeadStep => head_step(call.number, a, b),
        Function::Store | Function::Restore => columns(call.number, a, b),
    }
}

fn open(call: &Call) -> Vec<Fact> {
    let [a, b, c, d, e] = &call.slots;
    let lengths = [length(d, OPENING_BYTES, "opening"), length(e, STATE_BYTES, "state")];
    [lengths.concat(), tables(a, b, c), opening(d)].concat()
}

fn of_rule<const N: usize>(rule: u8, facts: [(bool, &'static str); N]) -> Vec<Fact> {
    facts.into_iter().map(|(holds, what)| (rule, what, holds)).collect()
}

fn length(slot: &[u8], needed: usize, name: &'static str) -> Vec<Fact> {
    of_rule(WRONG_LENGTH, [(slot.len() != needed, name)])
}

fn tables(orders: &[u8], cells: &[u8], samples: &[u8]) -> Vec<Fact> {
    let facts = [
        (orders.is_empty(), "no orders"),
        (orders.len() > 255, "over 255 orders"),
        (!cells.len().is_multiple_of(PATTERN_BYTES), "cells of no whole pattern"),
        (cells.len() > 100 * PATTERN_BYTES, "over 100 patterns"),
        (!samples.len().is_multiple_of(SAMPLE_BYTES), "samples cut"),
        (samples.len() > 99 * SAMPLE_BYTES, "over 99 samples"),
    ];
    of_rule(9, facts)
}

fn opening(bytes: &[u8]) -> Vec<Fact> {
    if bytes.len() != OPENING_BYTES {
        return Vec::new();
    }
    let opening = Opening::decode(bytes);
    let transposition = |out: fn(i8) -> bool| opening.channels.iter().any(|ch| out(ch.transposition));
    let facts = [
        (opening.speed == 0, "opening speed 0"),
        (opening.tempo < 32, "opening tempo below 32"),
        (opening.global_volume > 64, "opening volume above 64"),
        (opening.channels.iter().any(|ch| ch.pan > 15), "pan above 15"),
        (opening.rate == 0, "opening rate 0"),
        (opening.rate > 100_000, "opening rate above 100,000"),
        (transposition(is_below), "opening transposition below -24"),
        (transposition(is_above), "opening transposition above 24"),
    ];
    of_rule(10, facts)
}

fn state(bytes: &[u8]) -> Vec<Fact> {
    if bytes.len() != STATE_BYTES {
        return Vec::new();
    }
    let state = State::decode(bytes);
    let (card, remainder) = (&state.card, u32::from(state.card.remainder));
    let (mut frequencies, mut targets) = (state.channels.iter(), state.channels.iter());
    let transposition = |out: fn(i8) -> bool| state.channels.iter().any(|ch| out(ch.transposition));
    let facts = [
        (state.row > 63, "row above 63"),
        (state.loop_start_row > 63, "loop start above 63"),
        (state.speed == 0, "speed 0"),
        (state.bpm < 32, "tempo below 32"),
        (card.start > MOST_START, "start above 2^62"),
        (card.rate == 0, "rate 0"),
        (card.rate > 100_000, "rate above 100,000"),
        (remainder >= unit(state.bpm), REMAINDER),
        (frequencies.any(|ch| ch.frequency.is_nan()), "frequency not a number"),
        (targets.any(|ch| ch.target_frequency.is_nan()), "target not a number"),
        (transposition(is_below), "transposition below -24"),
        (transposition(is_above), "transposition above 24"),
    ];
    of_rule(11, facts)
}

/// 02: 'Section shall refuse channel volumes, not the global ones, above 63, or 64 on AdLib channels, and pans above 15.'
fn levels(bytes: &[u8]) -> Vec<Fact> {
    if bytes.len() != STATE_BYTES {
        return Vec::new();
    }
    let channels = State::decode(bytes).channels;
    let too_loud = |adlib: bool| {
        let mut alike = channels.iter().filter(|ch| ch.adlib == adlib);
        alike.any(|ch| ch.volume > most_volume(adlib))
    };
    let facts = [
        (too_loud(false), "volume above 63 on PCM"),
        (too_loud(true), "volume above 64 on AdLib"),
        (channels.iter().any(|ch| ch.pan > MOST_PAN), "pan above 15"),
    ];
    of_rule(17, facts)
}

fn is_below(transposition: i8) -> bool {
    transposition < *SPAN.start()
}

fn is_above(transposition: i8) -> bool {
    transposition > *SPAN.end()
}

/// Asked of tables of any sizes, so that a table may break rule 9 and this.
fn not_closed(tune: &Tune) -> Vec<Fact> {
    let facts = [
        (closed::recalls(tune), "S with info 0"),
        (closed::jumps_back(tune), "B at or before a place of its pattern"),
        (closed::loops_twice(tune), "two rows of a pattern that loop"),
    ];
    of_rule(14, facts)
}

fn output(n: u32, output: &[u8]) -> Vec<Fact> {
    let short = (output.len() as u64) < RECORD_BYTES as u64 * u64::from(n);
    of_rule(12, [(n > 65_535, ROWS_ABOVE), (short, "output too short")])
}

fn record(record: &[u8], output: &[u8], least: usize) -> Vec<Fact> {
    let output = of_rule(13, [(output.len() < least, "output too short for it")]);
    [record_length(record), output].concat()
}

fn record_length(record: &[u8]) -> Vec<Fact> {
    let facts = [
        (record.len() < RECORD_BYTES, "record too short"),
        (record.len() > RECORD_BYTES, "record too long"),
    ];
    of_rule(13, facts)
}

/// 13 is asked on a load only.
fn head_step(command: u32, head: &[u8], record: &[u8]) -> Vec<Fact> {
    let no_byte = of_rule(WRONG_LENGTH, [(command > 255, "command above 255")]);
    let record = if command == LOAD.into() {
        record_length(record)
    } else {
        Vec::new()
    };
    [no_byte, registers(head), record].concat()
}

fn registers(bytes: &[u8]) -> Vec<Fact> {
    let byte = |at: usize| bytes.get(at).map_or(0, |&byte| byte);
    let facts = [
        (bytes.len() < REGISTERS_BYTES, "registers too short"),
        (bytes.len() > REGISTERS_BYTES, "registers too long"),
        (byte(2) != 0, "register 2 not 0"),
        (byte(3) != 0, "register 3 not 0"),
        (byte(STATUS) & !(LOADED | LATE | INTERRUPT) != 0, "other status bits"),
    ];
    of_rule(15, facts)
}

/// Lengths are asked of any m, so that an m outside its span may be broken alone.
fn columns(m: u32, input: &[u8], output: &[u8]) -> Vec<Fact> {
    let bytes = u64::from(m) * RECORD_BYTES as u64;
    let [given, lent] = [input, output].map(|slot| slot.len() as u64);
    let facts = [
        (m < LEAST_RECORDS, "m of 0"),
        (m > MOST_RECORDS, RECORDS_ABOVE),
        (given < bytes, "input below m * 536 bytes"),
        (given > bytes, "input above m * 536 bytes"),
        (lent < bytes, "output below m * 536 bytes"),
        (lent > bytes, "output above m * 536 bytes"),
    ];
    of_rule(16, facts)
}
