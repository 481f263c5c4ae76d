//! Steps of the punch head: which commands meet which status, what is refused, and lists from sixteen zero bytes on. What
//! a step leaves is worked out here register by register, apart from `crate::head`.

use super::Tally;
use crate::list::Case;
use crate::tune::{RECORD_BYTES, le32};

const PREFIX: &str = "head_step: ";
const REGISTERS: usize = 16;
/// Of bits 0, 1 and 7 alone.
const STATUSES: [u8; 8] = [0, 1, 2, 3, 128, 129, 130, 131];
const COMMANDS: [u32; 8] = [0, 1, 2, 3, 4, 17, 128, 255];
/// Commands that have the low bits of those that act, or differ from one in a bit.
const NEAR: [u32; 15] = [5, 6, 7, 9, 10, 11, 33, 34, 35, 65, 66, 67, 129, 130, 131];
/// Commands that no byte holds.
const ABOVE: [u32; 9] = [256, 257, 258, 259, 511, 65_537, 16_777_218, 2_147_483_651, u32::MAX];
/// The commands that act, and one that does not.
const FEW: [u32; 4] = [0, 1, 2, 3];
const WRONG_LENGTHS: [usize; 3] = [0, 535, 537];

pub fn needs(tally: &mut Tally) {
    tally.prefix = PREFIX;
    tally.pairs("command {} at status {}", COMMANDS, &STATUSES);
    tally.pairs("command {} at status {}", NEAR, &[0, 131]);
    tally.pairs(
        "command {} with a record of {} bytes",
        [0, 2, 3, 4, 255],
        &WRONG_LENGTHS,
    );
    tally.pairs("load of {} bytes refused at status {}", WRONG_LENGTHS, &STATUSES);
    tally.pairs("status bit {} refused with command {}", 2..7, &FEW);
    tally.pairs("register {} refused with command {}", [2, 3], &FEW);
    tally.pairs("registers of {} bytes refused with command {}", [0, 15, 17], &FEW);
    tally.pairs("command {} refused at status {}", ABOVE, &[0, 131]);
    tally.prefix = "";
}

/// A list of steps that go on from each other, from sixteen zero bytes on.
#[derive(Default)]
pub struct Steps {
    /// Behind the last step; empty where no list goes on.
    registers: Vec<u8>,
    count: usize,
    taken: usize,
    struck: usize,
    /// Whether the last one was refused.
    refused: bool,
}

impl Steps {
    /// A step that was not refused.
    pub fn see(&mut self, tally: &mut Tally, case: &Case, from_section: bool) -> Result<(), String> {
        let [before, record, ..] = &case.call.slots;
        let (after, command) = (&case.answer.slots[0], case.call.number);
        let expected = || [behind(before, command, record), record.clone()];
        if refusal(before, command, record) > 0 || case.answer.slots[..2] != expected() || case.answer.number != 0 {
            return Err("the step is not that of 02".to_string());
        }
        tally.prefix = PREFIX;
        if tells(before, command, record) {
            tally.note(format!("command {command} at status {}", before[1]));
        }
        tally.note(format!("command {command} with a record of {} bytes", record.len()));
        self.go_on(before);
        let (was, is) = (before[1] & 1 == 1, after[1] & 1 == 1);
        let (takes, strikes) = (command == 1 && !was && is, command == 2 && was && !is);
        self.taken += usize::from(takes);
        self.struck += usize::from(strikes);
        self.see_list(tally, case, from_section, [takes, strikes]);
        self.registers.clone_from(after);
        self.refused = false;
        // 02: 'strikes done plus one if loaded equals loads that were taken'.
        let sums = self.count == 0 || self.struck + usize::from(is) == self.taken;
        sums.then_some(())
            .ok_or("strikes and loads of a list do not add up".to_string())
    }

    /// Counts a step of the list, or of a new one; of none where the registers are others.
    fn go_on(&mut self, before: &[u8]) {
        if *before == [0; REGISTERS] {
            (self.count, self.taken, self.struck) = (1, 0, 0);
        } else if self.count > 0 && *before == self.registers {
            self.count += 1;
        } else {
            self.count = 0;
        }
    }

    fn see_list(&self, tally: &mut Tally, case: &Case, from_section: bool, [takes, strikes]: [bool; 2]) {
        let [before, record, ..] = &case.call.slots;
        let (within, command) = (self.count > 1, case.call.number);
        let (loaded, late) = (before[1] & 1 == 1, before[1] & 2 == 2);
        let other = record.len() == RECORD_BYTES && before[4..8] != record[16..20];
        tally.anywhere([
            (self.count == 1, "list from sixteen zero bytes"),
            (self.count >= 20, "list of 20 steps"),
            (self.struck >= 5, "list of 5 strikes"),
            (within && self.refused, "list that goes on behind a refused step"),
            (within && takes && from_section, "list that takes a section's row"),
            (
                within && takes && other && le32(before, 4) != 0,
                "list that takes a row behind another",
            ),
            (
                within && command == 1 && loaded && other && from_section,
                "list with a late load of another row",
            ),
            (within && strikes && late, "list with a strike behind a late load"),
            (
                within && command == 2 && !loaded,
                "list with a strike where nothing is loaded",
            ),
            (
                within && command == 3 && loaded,
                "list with a clear where a row is loaded",
            ),
            (within && command == 3 && late, "list with a clear behind a late load"),
        ]);
    }

    /// A step that was refused: it leaves all as it was.
    pub fn refused(&mut self, tally: &mut Tally, case: &Case) -> Result<(), String> {
        let [registers, record, ..] = &case.call.slots;
        let command = case.call.number;
        tally.prefix = PREFIX;
        match (case.answer.refusal(), &registers[..]) {
            (255, &[_, status, ..]) => tally.note(format!("command {command} refused at status {status}")),
            (13, &[_, status, ..]) => tally.note(format!("load of {} bytes refused at status {status}", record.len())),
            (15, &[_, status, two, three, ..]) if registers.len() == REGISTERS => {
                see_broken(tally, command, status, [two, three]);
            }
            _ => tally.note(format!(
                "registers of {} bytes refused with command {command}",
                registers.len()
            )),
        }
        self.refused = true;
        let kept = case.answer.slots == case.call.slots;
        let sound = kept && case.answer.refusal() == refusal(registers, command, record);
        sound.then_some(()).ok_or("the refusal is not that of 02".to_string())
    }
}

/// What refuses a step, or 0, apart from `crate::rules`.
fn refusal(registers: &[u8], command: u32, record: &[u8]) -> u8 {
    match *registers {
        _ if command > 255 => 255,
        [_, status, 0, 0, ..] if registers.len() == REGISTERS && status & 0b0111_1100 == 0 => {
            let bad_load = command == 1 && record.len() != RECORD_BYTES;
            if bad_load { 13 } else { 0 }
        }
        _ => 15,
    }
}

/// Sixteen registers of which one bit of the status, or one of the two bytes behind it, is wrong.
fn see_broken(tally: &mut Tally, command: u32, status: u8, bytes: [u8; 2]) {
    let bits: Vec<u32> = (2..7).filter(|bit| status >> bit & 1 == 1).collect();
    match (&bits[..], bytes.map(|byte| byte == 0)) {
        ([bit], [true, true]) => tally.note(format!("status bit {bit} refused with command {command}")),
        ([], [false, true]) => tally.note(format!("register 2 refused with command {command}")),
        ([], [true, false]) => tally.note(format!("register 3 refused with command {command}")),
        _ => {}
    }
}

/// Whether a step would show each byte that it takes or does not: the record is whole, no two bytes of its head are
/// alike, and none that a load takes is there yet.
fn tells(before: &[u8], command: u32, record: &[u8]) -> bool {
    let distinct = |at: usize| !record[..at].contains(&record[at]);
    let new = |at: usize| before[at] != record[from(at)];
    let whole = record.len() == RECORD_BYTES && (0..24).all(distinct);
    whole && u32::from(before[0]) != command && (4..REGISTERS).all(new)
}

/// Where a record has what a load puts into a register.
fn from(register: usize) -> usize {
    if register < 8 { register + 12 } else { register }
}

/// Each register behind a step.
fn behind(before: &[u8], command: u32, record: &[u8]) -> Vec<u8> {
    let was = |bit: u32| before[1] >> bit & 1 == 1;
    let taken = command == 1 && !was(0);
    let loaded = taken || was(0) && command != 2;
    let late = command != 3 && (was(1) || command == 1 && was(0));
    let interrupt = command != 3 && (was(7) || command == 2 && was(0));
    let register = |at| match at {
        0 => command as u8,
        1 => u8::from(loaded) | u8::from(late) << 1 | u8::from(interrupt) << 7,
        4.. if taken => record[from(at)],
        _ => before[at],
    };
    (0..REGISTERS).map(register).collect()
}
