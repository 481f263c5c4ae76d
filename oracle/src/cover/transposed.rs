//! Transposed channels: which notes by which transpositions, in each place where a row works out a pitch; transpositions
//! that are taken and refused. A pitch is worked out here apart from `crate::transposed`, and counts where the row has it.

use super::Tally;
use super::rows::Seen;
use crate::calls::Function;
use crate::generate::pitch::limits;
use crate::list::Case;
use crate::plan::transposed::{ADLIB_NOTES, CHOSEN, ENDS, LENGTHS, NOTES, REFUSED, TAKEN};
use crate::player::cmd::*;
use crate::player::{PERIOD_TABLE, S2X_FINETUNE_TABLE};
use crate::state::{CHANNEL_BYTES, HEAD_BYTES};
use crate::tune::{CHANNELS, Tune};
use std::collections::BTreeSet;

const PREFIX: &str = "transposed: ";
/// 8363 times the table's period of middle C.
const CLOCK: u32 = 14_317_456;

/// Where a row works out a pitch.
const STRUCK: &str = "struck";
const ON_ADLIB: &str = "struck on AdLib";
const PLACES: [&str; 6] = [STRUCK, "target of G", "target of L", "bare G", "bare L", "S2x"];

pub fn needs(tally: &mut Tally) {
    tally.prefix = PREFIX;
    for place in PLACES {
        // A last note 0 is none: without a note there is no pitch then.
        let from_last = place.starts_with("bare") || place == "S2x";
        let notes = NOTES.into_iter().filter(|&note| note > 0 || !from_last);
        tally.pairs(&format!("{place}, note {{}} by {{}}"), notes, &CHOSEN);
    }
    tally.pairs(&format!("{ON_ADLIB}, note {{}} by {{}}"), ADLIB_NOTES, &CHOSEN);
    tally.family("struck inside the table by {}", (-24..=24).filter(|&by| by != 0));
    for name in ["open", "open_closed", "section"] {
        tally.pairs(&format!("{name} refuses {{}} in channel {{}}"), REFUSED, &ENDS);
        tally.pairs(&format!("{name} takes {{}} in channel {{}}"), TAKEN, &ENDS);
    }
    tally.pairs(
        "{} refuses opening values of {} bytes",
        ["read", "open", "open_closed"],
        &LENGTHS,
    );
    tally.family(
        "{} refused by 9 before a transposition",
        ["open", "open_closed", "section"],
    );
    tally.family("{} refused by 255 before a transposition", ["open", "open_closed"]);
    tally.family("{} refused by 9 before a transposition before 12", ["section"]);
    tally.family("{} refused by a transposition before 12", ["section"]);
    tally.family("{} refused by a transposition before 14", ["open_closed"]);
    tally.prefix = "";
}

/// A pitch that a row works out: where, of which note, at which c5 speed, and what the row has there.
struct Pitch {
    place: &'static str,
    note: u8,
    c5: u32,
    given: f32,
}

impl Pitch {
    /// Octave × 12 + semitone, and the transposition.
    fn uncut(&self, transposition: i8) -> i16 {
        i16::from(self.note >> 4) * 12 + i16::from(self.note & 15) + i16::from(transposition)
    }

    /// Whether the row has the pitch of this number.
    fn is(&self, number: i16) -> bool {
        let entry = PERIOD_TABLE[number.clamp(0, 107) as usize];
        let period = u64::from(entry) * 8363 / u64::from(self.c5.max(1));
        let expected = match period {
            0 => 0.0,
            _ => (f64::from(CLOCK) / period as f64) as f32,
        };
        expected == self.given
    }
}

/// The pitch that a cell asks for; the last of them where a finetune follows a note. A fine slide would change it.
fn pitch(tune: &Tune, cell: &Seen) -> Option<Pitch> {
    let (command, note, after) = (cell.cell.command, cell.cell.note, cell.after);
    let of = |place, note, c5, given| Some(Pitch { place, note, c5, given });
    if command == S_EXTENDED && after.info >> 4 == 2 && after.last_note != 0 {
        let c5 = S2X_FINETUNE_TABLE[usize::from(after.info & 15)];
        return of(PLACES[5], after.last_note, c5, after.frequency);
    }
    let (c5, last_note) = (cell.sample(tune)?.c5_speed, cell.before.last_note);
    match command {
        E_SLIDE_DOWN | F_SLIDE_UP => None,
        _ if cell.struck => of(STRUCK, note, c5, after.frequency),
        G_TONE_PORTA if note < 0xFE => of(PLACES[1], note, c5, after.target_frequency),
        L_PORT_VOL if note < 0xFE => of(PLACES[2], note, c5, after.target_frequency),
        G_TONE_PORTA if note == 0xFF && last_note != 0 => of(PLACES[3], last_note, c5, after.target_frequency),
        L_PORT_VOL if note == 0xFF && last_note != 0 => of(PLACES[4], last_note, c5, after.target_frequency),
        _ => None,
    }
}

/// A row that is not held.
pub fn see_row(tally: &mut Tally, tune: &Tune, seen: &[Seen], amiga_limits: bool) {
    tally.prefix = PREFIX;
    let mut struck = BTreeSet::new();
    for cell in seen.iter().filter(|cell| cell.before.transposition != 0) {
        see_nothing(tally, tune, cell);
        let Some(pitch) = pitch(tune, cell) else { continue };
        see_limits(tally, cell, &pitch, amiga_limits);
        if !amiga_limits && pitch.is(pitch.uncut(cell.before.transposition)) {
            see_pitch(tally, cell, &pitch);
            struck.extend(cell.struck.then_some(cell.before.transposition));
        }
    }
    tally.anywhere([(
        struck.len() >= CHOSEN.len(),
        "channels struck by 8 transpositions in a row",
    )]);
    tally.prefix = "";
}

fn see_pitch(tally: &mut Tally, cell: &Seen, pitch: &Pitch) {
    let (place, note, by) = (pitch.place, pitch.note, cell.before.transposition);
    tally.note(format!("{place}, note {note} by {by}"));
    let (number, plain) = (pitch.uncut(by), pitch.uncut(0));
    let inside = (1..107).contains(&number);
    if cell.struck && cell.before.adlib {
        tally.note(format!("{ON_ADLIB}, note {note} by {by}"));
    }
    if place == STRUCK && inside {
        tally.note(format!("struck inside the table by {by}"));
    }
    tally.anywhere([
        (number < 0, "pitch cut to 0"),
        (number == 0, "pitch 0, not cut"),
        (number > 107, "pitch cut to 107"),
        (number == 107, "pitch 107, not cut"),
        (inside && plain > 107, "number above 107 brought into the table"),
        (inside && note & 15 > 11, "semitone above 11 inside the table"),
    ]);
    let shown = !pitch.is(plain);
    tally.both([
        (shown && place == STRUCK, "note struck"),
        (shown && place.starts_with("target"), "note as a slide's target"),
        (shown && place.starts_with("bare"), "slide without a note"),
        (shown && place == "S2x", "finetune"),
        (shown && place == STRUCK && cell.before.adlib, "note struck on AdLib"),
    ]);
}

/// The limits act on the transposed pitch: it is outside them, or the one that is not transposed is.
fn see_limits(tally: &mut Tally, cell: &Seen, pitch: &Pitch, amiga_limits: bool) {
    let by = cell.before.transposition;
    let [own, plain] = [by, 0].map(|by| pitch.is(pitch.uncut(by)));
    let limited = limits().contains(&pitch.given.to_bits());
    tally.in_states([
        (amiga_limits && !own && limited, "pitch brought within the Amiga limits"),
        (amiga_limits && own && !plain, "pitch within the Amiga limits"),
    ]);
}

/// A last note 0 is none, whatever its transposition.
fn see_nothing(tally: &mut Tally, tune: &Tune, cell: &Seen) {
    let (before, after) = (cell.before, cell.after);
    let bare = matches!(cell.cell.command, G_TONE_PORTA | L_PORT_VOL) && cell.cell.note == 0xFF;
    let tunes = cell.cell.command == S_EXTENDED && after.info >> 4 == 2 && !cell.struck;
    let kept = before.target_frequency == after.target_frequency;
    let none = after.last_note == 0 && kept;
    tally.anywhere([
        (
            none && bare && cell.sample(tune).is_some(),
            "slide without a note behind note 0",
        ),
        (
            none && tunes && before.frequency == after.frequency,
            "finetune behind note 0",
        ),
    ]);
}

fn of_opening(opening: &[u8]) -> Vec<i8> {
    opening[144..176].iter().map(|&byte| byte as i8).collect()
}

fn of_state(state: &[u8]) -> Vec<i8> {
    let channels = state[HEAD_BYTES..].chunks_exact(CHANNEL_BYTES);
    channels.map(|channel| channel[45] as i8).collect()
}

/// What Open or open_closed puts into the state, or what a section leaves there; Read gives 0.
pub fn see_taken(tally: &mut Tally, case: &Case) -> Result<(), String> {
    let (lent, given) = (&case.call.slots, &case.answer.slots);
    let [before, after] = match case.call.function {
        Function::Read => [vec![0; CHANNELS], of_opening(&given[4])],
        Function::Section => [of_state(&lent[3]), of_state(&given[3])],
        _ => [of_opening(&lent[3]), of_state(&given[4])],
    };
    if before != after {
        return Err("the transpositions are not those of 02".to_string());
    }
    let (name, prefix) = (case.call.function.name(), tally.prefix);
    tally.prefix = PREFIX;
    for channel in ENDS {
        let by = before[channel];
        tally.note(format!("{name} takes {by} in channel {channel}"));
    }
    let (all, some) = (before.iter().all(|&by| by != 0), before.iter().any(|&by| by != 0));
    let opens = case.call.function == Function::Open;
    tally.anywhere([
        (opens && !some, "open without transpositions"),
        (opens && some && !all, "open with some channels transposed"),
        (opens && all, "open with all channels transposed"),
    ]);
    tally.prefix = prefix;
    Ok(())
}

/// A call that was refused: what of it is broken by rule.
pub fn see_refused(tally: &mut Tally, case: &Case, broken: &[(u8, &str)]) {
    let (call, name) = (&case.call, case.call.function.name());
    tally.prefix = PREFIX;
    let is_transposition = |what: &str| what.contains("transposition");
    let opening = if call.function == Function::Read { 4 } else { 3 };
    match *broken {
        [(255, "opening")] => {
            tally.note(format!(
                "{name} refuses opening values of {} bytes",
                call.slots[opening].len()
            ));
        }
        [(10 | 11, what)] if is_transposition(what) => see_refused_in(tally, case),
        _ => {
            let part = |&(rule, what): &(u8, &str)| match is_transposition(what) {
                true => "a transposition".to_string(),
                false => rule.to_string(),
            };
            let parts: Vec<String> = broken.iter().map(part).collect();
            tally.note(format!("{name} refused by {}", parts.join(" before ")));
        }
    }
    tally.prefix = "";
}

/// Where one channel alone is out of the span.
fn see_refused_in(tally: &mut Tally, case: &Case) {
    let (lent, name) = (&case.call.slots[3], case.call.function.name());
    let all = match case.call.function {
        Function::Section => of_state(lent),
        _ => of_opening(lent),
    };
    let out: Vec<usize> = (0..CHANNELS).filter(|&k| !(-24..=24).contains(&all[k])).collect();
    if let [channel] = out[..] {
        tally.note(format!("{name} refuses {} in channel {channel}", all[channel]));
    }
}
