//! What rows meet on the path, what their cells do, and the pitch that they ask for.

use super::{BOTH, FROM_STATES, Tally};
use crate::factors;
use crate::generate::pitch;
use crate::pattern::Cell;
use crate::plan::{C5_SPEEDS, PERIODS, frequencies};
use crate::player::cmd::*;
use crate::player::{Channel, PERIOD_TABLE};
use crate::samples::SampleBody;
use crate::state::{KEYED, RELEASED, State, voice_mark};
use crate::tune::Tune;

/// As many different infos, 0 among them, must be met with each command.
const INFOS: usize = 20;

pub fn needs(tally: &mut Tally) {
    let nibbles = || (0..16).map(|nibble| format!("{nibble:X}"));
    tally.need(BOTH, "{} with info 0", 'A'..='Z');
    tally.need(BOTH, "{} with info", 'A'..='Z');
    tally.need(BOTH, "S{}x fresh", nibbles());
    tally.need(FROM_STATES, "S00 recalls S{}x", nibbles());
    tally.need(BOTH, "S00 recalls S{}x", ["B", "D", "E"]);
    tally.need(BOTH, "command above {}", [26]);
    let commands = (0..=30).chain([255]);
    tally.need(FROM_STATES, "command {} with 20 infos and 0", commands);
    let slides = ["FF", "F0", "0F", "Fy", "xF", "x0", "0y", "xy"];
    tally.need(FROM_STATES, "D{}", slides);
    tally.pairs("note byte {} at c5 speed {}", 0..=255, &C5_SPEEDS);
    let factors: Vec<usize> = (0..64).collect();
    let frequencies = || frequencies().map(|bits| format!("{bits:#x}"));
    tally.pairs("frequency {} by factor {}", frequencies(), &factors);
    tally.pairs("frequency {} with limits {}", frequencies(), &["on", "off"]);
}

/// A cell of a row being entered, with its channel before and after.
pub struct Seen<'a> {
    pub before: &'a Channel,
    pub after: &'a Channel,
    pub cell: Cell,
    pub struck: bool,
}

impl Seen<'_> {
    /// The info that acts, recalled where it is 0.
    fn info(&self) -> u8 {
        self.after.info
    }

    /// Whether its channel is not transposed: then the original works its pitch out.
    fn is_plain(&self) -> bool {
        self.before.transposition == 0
    }

    fn is_slide(&self) -> bool {
        matches!(self.cell.command, G_TONE_PORTA | L_PORT_VOL)
    }

    /// Which of the 64 fine slides it is.
    fn factor(&self) -> Option<usize> {
        let fine = matches!(self.cell.command, E_SLIDE_DOWN | F_SLIDE_UP) && self.info() >= 0xE0;
        fine.then(|| factors::index(self.cell.command, self.info()))
    }

    pub fn sample(&self, tune: &Tune) -> Option<SampleBody> {
        let number = usize::from(self.after.instrument);
        let known = (1..=tune.sample_count()).contains(&number);
        known.then(|| tune.sample(number - 1))
    }
}

/// A row that is not held.
pub fn see(tally: &mut Tally, tune: &Tune, seen: &[Seen], [before, entered]: [&State; 2]) {
    see_path(tally, seen, before, entered);
    for cell in seen {
        see_command(tally, cell);
        see_note(tally, tune, cell);
        see_sound(tally, entered.amiga_limits, cell);
        see_slide(tally, entered.amiga_limits, cell);
        if tally.walking {
            continue;
        }
        let (command, met) = (cell.cell.command, tally.infos.entry(cell.cell.command).or_default());
        let (new, zero) = (met.insert(cell.cell.info), met.contains(&0));
        let all = met.len() >= INFOS && zero;
        if all {
            tally.note(format!("command {command} with {INFOS} infos and 0"));
        }
        tally.news += usize::from(new && !all && (command <= 30 || command == 255));
    }
}

/// The last low nibble of S with this subcommand on the row.
fn request(seen: &[Seen], sub: u8) -> Option<u8> {
    let extended = |cell: &&Seen| cell.cell.command == S_EXTENDED && cell.info() >> 4 == sub;
    seen.iter().rfind(extended).map(|cell| cell.info() & 0x0F)
}

fn see_path(tally: &mut Tally, seen: &[Seen], before: &State, entered: &State) {
    let has = |command: u8| seen.iter().filter(move |cell| cell.cell.command == command);
    let is_valid = |cell: &Seen| (cell.info() >> 4) * 10 + (cell.info() & 15) < 64;
    let breaks = |valid: bool| has(C_PAT_BREAK).any(|cell| is_valid(cell) == valid);
    let (by_order, by_row) = (has(B_POS_JUMP).count() > 0, breaks(true));
    let jump = by_order || by_row;
    let loops = request(seen, 0xB);
    let taken = loops > Some(0) && entered.loop_count.is_some();
    let finished = loops > Some(0) && entered.loop_count.is_none();
    let hold = request(seen, 0xE) > Some(0);
    let clocks = has(A_SET_SPEED).count() + has(T_SET_TEMPO).count();
    let changes = (before.speed, before.bpm) != (entered.speed, entered.bpm);
    tally.both([
        (breaks(false), "C ignored"),
        (loops == Some(0), "loop request 0"),
        (taken, "loop taken"),
        (taken && jump, "loop taken on a row with a jump"),
        (finished, "loop finished"),
        (finished && jump, "loop finished on a row with a jump"),
        (hold, "hold request above 0"),
        (hold && jump, "hold request on a row with a jump"),
        (!taken && by_order && !by_row, "jump by B alone"),
        (!taken && by_row && !by_order, "jump by C alone"),
        (!taken && by_order && by_row, "jump by B and C"),
        (changes && clocks > 1, "several A or T on a row"),
        (has(V_GLOBAL_VOL).any(|cell| cell.info() <= 64), "V waits"),
    ]);
}

fn see_command(tally: &mut Tally, cell: &Seen) {
    let (command, zero, sub) = (cell.cell.command, cell.cell.info == 0, cell.info() >> 4);
    match command {
        0 => {}
        1..=26 if zero => tally.note(format!("{} with info 0", char::from(b'@' + command))),
        1..=26 => tally.note(format!("{} with info", char::from(b'@' + command))),
        27.. => tally.note("command above 26"),
    }
    match command {
        D_VOL_SLIDE => {
            let digits = [(sub, "x"), (cell.info() & 15, "y")].map(|(nibble, between)| match nibble {
                0 => "0",
                15 => "F",
                _ => between,
            });
            tally.note(format!("D{}", digits.concat()));
        }
        S_EXTENDED if zero => tally.note(format!("S00 recalls S{sub:X}x")),
        S_EXTENDED => tally.note(format!("S{sub:X}x fresh")),
        _ => {}
    }
    if command == S_EXTENDED && sub == 2 && cell.after.last_note != 0 && cell.is_plain() {
        tally.among("finetune {}", 0..16, cell.info() & 15);
    }
}

fn see_note(tally: &mut Tally, tune: &Tune, cell: &Seen) {
    let (note, before, after, sample) = (cell.cell.note, cell.before, cell.after, cell.sample(tune));
    let put_off = after.pending_delay.is_some() && cell.cell.info != 0;
    let slides = cell.is_slide() && sample.is_some();
    let (cut, adlib, voice) = (note == 0xFE && !put_off, before.adlib, before.opl_voice.is_some());
    let target = slides && note < 0xFE && !cell.struck;
    let bare = slides && note == 0xFF && before.last_note != 0;
    let marks = [before, after].map(voice_mark);
    tally.both([
        (put_off, "note put off"),
        (!put_off && bare, "bare G or L"),
        (!put_off && target, "note as a slide's target"),
        (cut && !adlib, "cut on PCM"),
        (cut && adlib && voice, "cut on AdLib with a voice"),
        (cut && adlib && !voice, "cut on AdLib without a voice"),
        (marks == [KEYED, RELEASED], "voice released"),
    ]);
    tally.in_states([
        (marks == [RELEASED, KEYED], "voice released, keyed anew"),
        (note == 0, "note 0"),
        ((0x8C..0xFE).contains(&note), "note above B-8"),
        (note < 0x8C && note & 15 > 11, "note beside the table"),
    ]);
    if let Some(sample) = sample.filter(|_| cell.struck || bare) {
        if cell.is_plain() {
            see_period(tally, if bare { before.last_note } else { note }, sample.c5_speed);
        }
        if cell.struck {
            see_strike(tally, cell, &sample);
        }
    }
}

/// A period is 8363 times the table's entry, by the c5 speed, cut down.
fn see_period(tally: &mut Tally, note: u8, c5: u32) {
    tally.note(format!("note byte {note} at c5 speed {c5}"));
    if note != 0 || c5 < 2 {
        return;
    }
    let [before, own, behind] = [c5 - 1, c5, c5.saturating_add(1)].map(|c5| 8363 * PERIOD_TABLE[0] / c5);
    if before != own {
        tally.among("past the last c5 speed of period {}", PERIODS, before);
    }
    if own != behind {
        tally.among("last c5 speed of period {}", PERIODS, own);
    }
}

fn see_strike(tally: &mut Tally, cell: &Seen, sample: &SampleBody) {
    let (by_offset, offset) = (cell.cell.command == O_SAMPLE_OFFSET, u32::from(cell.info()) * 256);
    let plain = cell.after.sample_pos == f64::from(offset);
    let cleared = cell.before.opl_voice.is_some() && cell.after.opl_voice.is_none();
    if cell.is_plain() {
        let number = (cell.cell.note >> 4) * 12 + (cell.cell.note & 0x0F);
        tally.among("note number {}", 0..108, number.min(107));
    }
    tally.both([
        (true, "note struck"),
        (by_offset && plain, "note struck by O, plain offset"),
        (by_offset && !plain, "note struck by O, offset folded into the loop"),
        (cell.is_slide(), "note struck with G or L"),
        (cell.after.frequency == 0.0, "note struck at frequency 0"),
        (cell.before.adlib && sample.adlib.is_some(), "voice keyed"),
        (cleared, "voice cleared by a PCM sample"),
    ]);
    if by_offset {
        see_offset(tally, offset, sample);
    }
}

fn see_offset(tally: &mut Tally, offset: u32, sample: &SampleBody) {
    let (start, end, on) = (sample.loop_start, sample.loop_end, sample.looped);
    let (length, past) = (sample.pcm.frames as u32, offset >= end);
    let whole = end > start && end <= length;
    let (usable, folded, lost) = (on && whole, on && whole && past, on && !whole && past);
    let (empty, turned, too_long) = (lost && end == start, lost && end < start, lost && end > start);
    let one_frame = folded && end - start == 1;
    tally.among("offset {}", [0, 65_280], offset);
    tally.anywhere([
        (usable && end == offset + 1, "offset one below the loop's end"),
        (usable && end == offset, "offset at the loop's end"),
        (folded && end + 1 == offset, "offset one past the loop's end"),
        (one_frame, "offset past the loop's end, loop of one frame"),
        (folded && start == 0, "offset past the loop's end, loop from 0"),
        (usable && end == u32::MAX, "offset in a loop to 2^32 - 1"),
        (!on && past && whole, "offset past the end of a loop that is off"),
        (empty, "offset past the end of a loop that is empty"),
        (turned, "offset past the end of a loop that is turned round"),
        (too_long, "offset past the end of a loop that is longer than its sample"),
    ]);
}

fn see_sound(tally: &mut Tally, amiga_limits: bool, cell: &Seen) {
    let (before, after) = (cell.before, cell.after);
    let (instrument, volume) = (cell.cell.instrument, cell.cell.volume);
    let limited = after.frequency != before.frequency && pitch::limits().contains(&after.frequency.to_bits());
    let unknown = instrument >= 100 && after.instrument == instrument;
    let slid = cell.cell.command == D_VOL_SLIDE && instrument == 0 && volume == 255;
    let latched = slid && after.voice_global_vol != before.voice_global_vol;
    let still = cell.is_slide() && before.frequency <= 0.0;
    tally.in_states([
        (before.frozen && !after.frozen, "channel thawed"),
        (before.frozen && after.frozen, "channel left frozen"),
        (still, "G or L at a frequency that is not above 0"),
        (latched, "latched anew by a slide"),
    ]);
    tally.both([
        (unknown, "unknown instrument"),
        (volume != 0xFF && volume > 64, "volume above 64 in a cell"),
        (amiga_limits && limited, "Amiga limits act"),
    ]);
}

/// A fine slide, and the frequency that it finds.
fn see_slide(tally: &mut Tally, amiga_limits: bool, cell: &Seen) {
    let Some(factor) = cell.factor() else { return };
    if cell.after.frequency.is_normal() {
        tally.among("factor {}", 0..64, factor);
    }
    if cell.cell.note != 255 {
        return;
    }
    let (bits, limits) = (cell.before.frequency.to_bits(), if amiga_limits { "on" } else { "off" });
    tally.note(format!("frequency {bits:#x} by factor {factor}"));
    if cell.info() == 0xE0 {
        tally.note(format!("frequency {bits:#x} with limits {limits}"));
    }
}
