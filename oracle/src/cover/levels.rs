//! Levels: which are refused and taken, in which channels, behind and before which rules; what rows make of levels at their
//! limits. The limits are asked here apart from `crate::levels` and `crate::rules`, and no level that is taken or given may
//! be above them.

use super::rows::Seen;
use super::{BOTH, FROM_STATES, Tally};
use crate::calls::Function;
use crate::list::Case;
use crate::plan::levels::*;
use crate::player::cmd::*;
use crate::state::{CHANNEL_BYTES, HEAD_BYTES, STATE_BYTES};
use crate::tune::Tune;

const PREFIX: &str = "levels: ";
const KINDS: [&str; 3] = ["volume on PCM", "volume on AdLib", "pan"];

/// Every order in which 17 meets the rules about it.
pub const ORDERS: [&str; 8] = [
    "17",
    "11 before 17",
    "17 before 12",
    "11 before 17 before 12",
    "9 before 17",
    "9 before 11 before 17",
    "9 before 17 before 12",
    "9 before 11 before 17 before 12",
];

/// Volumes that a row finds, and what it does to them.
const FOUND: [&str; 3] = ["64 on AdLib", "63 on AdLib", "63 on PCM"];
const CHANGES: [&str; 14] = [
    "left by a cell without a volume",
    "raised by DFF",
    "raised by DF0",
    "raised by DxF",
    "raised by Dx0, fast",
    "left by Dx0, not fast",
    "lowered by D0F",
    "lowered by DFy",
    "lowered by D0y, fast",
    "lowered by Dxy, fast",
    "left by D0y or Dxy, not fast",
    "set by a cell of 64 or more",
    "set by a sample of 64",
    "set by a sample above 64",
];
const PANNED: [&str; 4] = ["X80", "X above 80", "S8F", "SAx"];

pub fn needs(tally: &mut Tally) {
    tally.prefix = PREFIX;
    let of_kinds: [(&[u8], &[u8]); 3] = [
        (&PCM_REFUSED, &PCM_TAKEN),
        (&ADLIB_REFUSED, &ADLIB_TAKEN),
        (&PANS_REFUSED, &PANS_TAKEN),
    ];
    for (kind, (refused, taken)) in KINDS.into_iter().zip(of_kinds) {
        tally.pairs(&format!("{kind} {{}} refused in channel {{}}"), refused, &CHOSEN);
        tally.pairs(&format!("{kind} {{}} taken in channel {{}}"), taken, &CHOSEN);
    }
    tally.pairs("volume {} refused by mark {}", ADLIB_REFUSED, &MARKS);
    tally.pairs("volume {} taken by mark {}", ADLIB_TAKEN, &MARKS);
    tally.pairs("{} by rule {}", KINDS, &ORDERS);
    for found in FOUND {
        tally.need(FROM_STATES, &format!("{found} {{}}"), CHANGES);
    }
    tally.need(BOTH, "pan 15 by {}", PANNED);
    tally.prefix = "";
}

/// A channel's levels, with its mark.
#[derive(Clone, Copy)]
struct Levels {
    volume: u8,
    pan: u8,
    mark: u8,
}

impl Levels {
    fn kind(self) -> &'static str {
        KINDS[usize::from(self.mark != 0)]
    }

    fn most_volume(self) -> u8 {
        if self.mark == 0 { 63 } else { 64 }
    }

    fn are_most(self) -> bool {
        self.volume == self.most_volume() && self.pan == 15
    }

    /// What is above its limit, and how far it goes.
    fn above(self) -> impl Iterator<Item = (&'static str, u8)> {
        let volume = (self.volume > self.most_volume()).then_some((self.kind(), self.volume));
        let pan = (self.pan > 15).then_some((KINDS[2], self.pan));
        volume.into_iter().chain(pan)
    }
}

fn of_state(state: &[u8]) -> Vec<Levels> {
    let channels = state[HEAD_BYTES..].chunks_exact(CHANNEL_BYTES);
    let levels = |part: &[u8]| Levels {
        volume: part[17],
        pan: part[18],
        mark: part[42],
    };
    channels.map(levels).collect()
}

/// The levels of a record; the marks are the state's.
fn of_record(record: &[u8], state: &[Levels]) -> Vec<Levels> {
    let channels = record[24..].chunks_exact(16).zip(state);
    let levels = |(part, channel): (&[u8], &Levels)| Levels {
        volume: part[9],
        pan: part[10],
        ..*channel
    };
    channels.map(levels).collect()
}

/// All that is above its limit: in which channel, of which kind and how far.
fn above(levels: &[Levels]) -> Vec<(usize, &'static str, u8)> {
    let channels = levels.iter().enumerate();
    let of = |(k, channel): (usize, &Levels)| channel.above().map(move |(kind, level)| (k, kind, level));
    channels.flat_map(of).collect()
}

/// Whether all channels but this have their levels at the limits.
fn others_are_most(levels: &[Levels], channel: usize) -> bool {
    let mut others = levels.iter().enumerate().filter(|&(k, _)| k != channel);
    others.all(|(_, levels)| levels.are_most())
}

/// What Open or open_closed gives, or what a section takes and gives: nothing may be above its limit, and the marks stay.
pub fn see_taken(tally: &mut Tally, case: &Case) -> Result<(), String> {
    let opens = case.call.function != Function::Section;
    if opens {
        return within(&of_state(&case.answer.slots[4]));
    }
    let [lent, given] = [&case.call.slots, &case.answer.slots].map(|slots| of_state(&slots[3]));
    within(&lent)?;
    within(&given)?;
    for record in case.answer.records() {
        within(&of_record(record, &lent))?;
    }
    if lent.iter().zip(&given).any(|(a, b)| (a.mark != 0) != (b.mark != 0)) {
        return Err("a row changes an AdLib mark".to_string());
    }
    tally.prefix = PREFIX;
    see_levels(tally, &lent);
    see_others(tally, &case.call.slots[3]);
    tally.prefix = "";
    Ok(())
}

fn within(levels: &[Levels]) -> Result<(), String> {
    match above(levels)[..] {
        [] => Ok(()),
        [(channel, kind, level), ..] => Err(format!("{kind} {level} in channel {channel}")),
    }
}

/// Levels of chosen channels that are taken, where all others are at their limits.
fn see_levels(tally: &mut Tally, levels: &[Levels]) {
    for channel in CHOSEN.into_iter().filter(|&channel| others_are_most(levels, channel)) {
        let one = levels[channel];
        tally.note(format!("{} {} taken in channel {channel}", one.kind(), one.volume));
        tally.note(format!("{} {} taken in channel {channel}", KINDS[2], one.pan));
        tally.note(format!("volume {} taken by mark {}", one.volume, one.mark));
    }
}

/// Volumes that no rule asks for, in a state that is taken.
fn see_others(tally: &mut Tally, state: &[u8]) {
    let any = |byte: usize| {
        let mut channels = state[HEAD_BYTES..].chunks_exact(CHANNEL_BYTES);
        channels.any(|part| part[byte] > 64)
    };
    let (global, stored, voice) = (state[12] > 64, any(36), any(44));
    tally.anywhere([
        (stored && !global && !voice, "stored volume above 64 taken"),
        (voice && !global && !stored, "voice's global volume above 64 taken"),
        (global && !stored && !voice, "global volume above 64 taken"),
        (global && stored && voice, "all three above 64 taken"),
    ]);
}

/// A section that was refused, with a state of the right length: rule 17 is broken where a level is above its limit.
pub fn see_refused(tally: &mut Tally, case: &Case, broken: &[(u8, &str)]) -> Result<(), String> {
    let state = &case.call.slots[3];
    if case.call.function != Function::Section || state.len() != STATE_BYTES {
        return Ok(());
    }
    let levels = of_state(state);
    let (above, is_broken) = (above(&levels), broken.iter().any(|&(rule, _)| rule == 17));
    if above.is_empty() == is_broken {
        return Err(format!("{above:?} are above their limits, but broken are {broken:?}"));
    }
    tally.prefix = PREFIX;
    if let [(channel, kind, level)] = above[..] {
        see_order(tally, case, broken, kind, channel);
        if broken.len() == 1 && others_are_most(&levels, channel) {
            tally.note(format!("{kind} {level} refused in channel {channel}"));
        }
        if broken.len() == 1 && kind == KINDS[1] {
            tally.note(format!("volume {level} refused by mark {}", levels[channel].mark));
        }
    }
    let alone = broken.iter().all(|&(rule, _)| rule == 17);
    see_place(tally, case, if alone { &above } else { &[] });
    tally.prefix = "";
    Ok(())
}

/// One level above its limit, with what else is broken.
fn see_order(tally: &mut Tally, case: &Case, broken: &[(u8, &str)], kind: &str, channel: usize) {
    let mut rules: Vec<String> = broken.iter().map(|(rule, _)| rule.to_string()).collect();
    rules.dedup();
    tally.note(format!("{kind} by rule {}", rules.join(" before ")));
    let behind = case.call.slots[3][HEAD_BYTES..]
        .chunks_exact(CHANNEL_BYTES)
        .skip(channel + 1);
    let float = |part: &[u8]| f32::from_le_bytes([part[0], part[1], part[2], part[3]]);
    let of_channel = behind.clone().any(|part| float(part).is_nan());
    let moved = behind.clone().any(|part| !(-24..=24).contains(&(part[45] as i8)));
    let state = [broken[0].0, broken[broken.len() - 1].0] == [11, 17];
    tally.anywhere([
        (state && of_channel, "frequency of a later channel answers first"),
        (state && moved, "transposition of a later channel answers first"),
    ]);
}

/// Where the levels stand that rule 17 alone refuses.
fn see_place(tally: &mut Tally, case: &Case, above: &[(usize, &str, u8)]) {
    let (state, n) = (&case.call.slots[3], case.call.number);
    let channel = above.first().map_or(0, |&(channel, ..)| channel);
    let part = &state[HEAD_BYTES + CHANNEL_BYTES * channel..][..CHANNEL_BYTES];
    let (one, pcm) = (
        above.len() == 1,
        above.first().is_some_and(|&(_, kind, _)| kind == KINDS[0]),
    );
    tally.anywhere([
        (one && state[9] != 0 && n > 0, "refused in an ended state"),
        (one && state[9] != 0 && n == 0, "refused in an ended state, no rows"),
        (one && state[9] == 0 && n == 0, "refused in a section of no rows"),
        (one && state[8] != 0, "refused before a row held"),
        (one && part[39] != 0, "refused in a muted channel"),
        (one && part[39] == 0 && part[19] != 0, "refused in an active channel"),
        (
            one && part[39] == 0 && part[19] == 0,
            "refused in a channel that is not active",
        ),
        (one && part[40] != 0, "refused in a frozen channel"),
        (one && pcm && part[43] == 1, "refused on PCM with a voice"),
        (one && pcm && part[43] == 2, "refused on PCM with a voice released"),
        (above.len() > 1, "several refused at once"),
    ]);
}

/// A row that is not held.
pub fn see_row(tally: &mut Tally, tune: &Tune, seen: &[Seen], fast_slides: bool) {
    tally.prefix = PREFIX;
    for cell in seen {
        see_pan(tally, cell);
        let found = match (cell.before.adlib, cell.before.volume) {
            (true, 64) => FOUND[0],
            (true, 63) => FOUND[1],
            (false, 63) => FOUND[2],
            _ => continue,
        };
        let Some((change, volume)) = change(tune, cell, fast_slides) else {
            continue;
        };
        if cell.after.volume == volume {
            tally.note(format!("{found} {change}"));
            see_change(tally, found, change);
        }
    }
    tally.prefix = "";
}

/// The main ones, from states and along walks.
fn see_change(tally: &mut Tally, found: &str, change: &str) {
    let at_most = found == FOUND[0];
    tally.both([
        (at_most && change.starts_with("left"), "64 on AdLib left"),
        (at_most && change.starts_with("raised"), "64 on AdLib raised, to 63"),
        (at_most && change.starts_with("lowered"), "64 on AdLib lowered"),
        (at_most && change.starts_with("set by a sample"), "64 on AdLib set anew"),
        (!at_most && change.starts_with("raised"), "63 raised, to 63"),
    ]);
}

/// What a cell alone does to a volume of 63 or 64, and the volume that it must leave.
fn change(tune: &Tune, cell: &Seen, fast_slides: bool) -> Option<(&'static str, u8)> {
    let (before, command, volume) = (cell.before, cell.cell.command, cell.cell.volume);
    match (cell.cell.instrument, volume, command) {
        (0, 255, D_VOL_SLIDE) => slide(before.volume, cell.after.info, fast_slides),
        (0, 255, _) => Some((CHANGES[0], before.volume)),
        (_, _, D_VOL_SLIDE | S_EXTENDED) => None,
        (0, 64.., _) => Some((CHANGES[11], 63)),
        (1.., 255, _) => {
            let (given, most) = (cell.sample(tune)?.volume, if before.adlib { 64 } else { 63 });
            (given >= 64).then_some((CHANGES[if given == 64 { 12 } else { 13 }], most))
        }
        _ => None,
    }
}

/// What Dxy does on a row's first tick.
fn slide(volume: u8, info: u8, fast_slides: bool) -> Option<(&'static str, u8)> {
    let change = match (info >> 4, info & 15, fast_slides) {
        (0, 0, _) => return None,
        (15, 15, _) => (CHANGES[1], 63),
        (15, 0, _) => (CHANGES[2], 63),
        (_, 15, _) if info > 15 => (CHANGES[3], 63),
        (0, 15, _) => (CHANGES[6], volume - 15),
        (15, y, _) => (CHANGES[7], volume - y),
        (_, 0, true) => (CHANGES[4], 63),
        (_, 0, false) => (CHANGES[5], volume),
        (0, y, true) => (CHANGES[8], volume - y),
        (_, y, true) => (CHANGES[9], volume - y),
        (_, _, false) => (CHANGES[10], volume),
    };
    Some(change)
}

/// A pan that comes to its limit.
fn see_pan(tally: &mut Tally, cell: &Seen) {
    let by = match (cell.cell.command, cell.after.info) {
        (X_SET_PAN, 0x80) => PANNED[0],
        (X_SET_PAN, 0x81..) => PANNED[1],
        (S_EXTENDED, 0x8F) => PANNED[2],
        (S_EXTENDED, 0xA0..=0xA3) => PANNED[3],
        _ => return,
    };
    if cell.after.pan == 15 {
        tally.note(format!("pan 15 by {by}"));
    }
}
