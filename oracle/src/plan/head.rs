//! Steps of the punch head: every allowed status with commands that act and others, each way to break a rule, and lists
//! from sixteen zero bytes on, over recorded rows and at random.

use crate::calls::Call;
use crate::generate::head;
use crate::head::{CLEAR, INTERRUPT, LOAD, LOADED, REGISTERS_BYTES, STATUS, STRIKE};
use crate::list::Case;
use crate::random::Random;
use crate::tune::{RECORD_BYTES, le32};

/// Those that rule 15 lets through, and one of every bit.
const STATUSES: [u8; 8] = [0, 1, 2, 3, 128, 129, 130, 131];
const ALL_SET: u8 = 131;
const COMMANDS: [u32; 8] = [0, 1, 2, 3, 4, 17, 128, 255];
/// Commands that have the low bits of those that act, or differ from one in a bit.
const NEAR: [u32; 15] = [5, 6, 7, 9, 10, 11, 33, 34, 35, 65, 66, 67, 129, 130, 131];
/// Commands that no byte holds.
const ABOVE: [u32; 9] = [256, 257, 258, 259, 511, 65_537, 16_777_218, 2_147_483_651, u32::MAX];
/// The commands that act, and one that does not.
const FEW: [u32; 4] = [0, 1, 2, 3];
/// What lies about a record's first 24 bytes.
const FILL: u8 = 0x5A;

/// Commands of a list; each load is of the next row.
#[rustfmt::skip]
const LIST: [u8; 24] = [
    LOAD, STRIKE, LOAD, LOAD, STRIKE, CLEAR, STRIKE, LOAD, 0, CLEAR, LOAD, LOAD,
    CLEAR, STRIKE, STRIKE, 255, CLEAR, CLEAR, LOAD, STRIKE, LOAD, STRIKE, LOAD, 4,
];
/// Before every so many of its steps one is refused.
const REFUSED: usize = 6;
const RANDOM: usize = 40;

/// The steps, some of them on rows of the list.
pub fn cases(rows: &[&[u8]]) -> Vec<Case> {
    let chosen = allowed().chain(broken()).chain(lengths()).chain(above());
    let mut cases: Vec<Case> = chosen.map(Case::of).collect();
    cases.extend(listed(rows));
    cases.extend(random());
    cases
}

/// Registers with a status, the others unlike the record's.
fn registers(status: u8) -> Vec<u8> {
    let mut out: Vec<u8> = (0xE0..).take(REGISTERS_BYTES).collect();
    out[STATUS..4].copy_from_slice(&[status, 0, 0]);
    out
}

/// A record of so many bytes, no two of its first 24 alike.
fn record(length: usize) -> Vec<u8> {
    let mut out: Vec<u8> = (0x10..).take(24).collect();
    out.resize(RECORD_BYTES, FILL);
    out.resize(length, 0);
    out
}

fn whole(registers: &[u8], command: u32) -> Call {
    Call::head_step(registers, command, &record(RECORD_BYTES))
}

/// Registers that rule 15 lets through, with a whole record.
fn allowed() -> impl Iterator<Item = Call> {
    let all = STATUSES
        .into_iter()
        .flat_map(|status| COMMANDS.map(|command| (status, command)));
    let near = [0, ALL_SET]
        .into_iter()
        .flat_map(|status| NEAR.map(|command| (status, command)));
    all.chain(near)
        .map(|(status, command)| whole(&registers(status), command))
}

/// Registers that rule 15 refuses, most for one reason, with a few commands; and a load of no record, which would be refused
/// behind it.
fn broken() -> impl Iterator<Item = Call> {
    let edited = |at: usize, byte: u8| {
        let mut out = registers(LOADED);
        out[at] = byte;
        out
    };
    let sized = |length| {
        let mut out = registers(LOADED);
        out.resize(length, 0);
        out
    };
    let bits = (2..7).map(|bit| edited(STATUS, 1 << bit));
    let bytes = [(2, 1), (2, 128), (3, 1), (3, 128), (STATUS, 255)].map(|(at, byte)| edited(at, byte));
    let refused: Vec<Vec<u8>> = bits.chain(bytes).chain([0, 15, 17].map(sized)).collect();
    let short = refused
        .clone()
        .into_iter()
        .map(|registers| Call::head_step(&registers, 1, &[]));
    let each = refused
        .into_iter()
        .flat_map(|registers| FEW.map(|command| whole(&registers, command)));
    each.chain(short)
}

/// Records of wrong lengths: a load refuses them, loaded or not, and other commands do not look.
fn lengths() -> impl Iterator<Item = Call> {
    let wrong = [RECORD_BYTES - 1, RECORD_BYTES + 1, 0];
    let of = move |status, command| wrong.map(|length| Call::head_step(&registers(status), command, &record(length)));
    let loads = STATUSES.into_iter().flat_map(move |status| of(status, LOAD.into()));
    let others = [0, 2, 3, 4, 255]
        .into_iter()
        .flat_map(move |command| of(ALL_SET, command));
    let unloaded = of(INTERRUPT, STRIKE.into());
    loads.chain(others).chain(unloaded)
}

/// Commands that no byte holds: on good registers, on broken ones, and with a short record.
fn above() -> impl Iterator<Item = Call> {
    let good = ABOVE
        .into_iter()
        .flat_map(|command| [0, ALL_SET].map(|status| whole(&registers(status), command)));
    let broken = [257, 258].into_iter().flat_map(|command| {
        let (bit, short) = (registers(1 << 6), &registers(LOADED)[..15]);
        [
            whole(&bit, command),
            whole(short, command),
            Call::head_step(&bit, command, &[]),
        ]
    });
    good.chain(broken).chain([Call::head_step(&registers(0), 257, &[])])
}

/// Steps that go on from each other, from sixteen zero bytes on, over rows that strike; some are refused between.
fn listed(rows: &[&[u8]]) -> Vec<Case> {
    let mut rows = rows.iter().filter(|row| le32(row, 16) != 0).cycle();
    let (mut row, mut registers) = (&[][..], vec![0; REGISTERS_BYTES]);
    let mut cases = Vec::new();
    for (n, command) in LIST.into_iter().enumerate() {
        if command == LOAD {
            row = rows.next().expect("some row strikes");
        }
        if n % REFUSED == 0 {
            let short = &row[..RECORD_BYTES - 1];
            cases.push(Case::of(Call::head_step(&registers, LOAD.into(), short)));
        }
        let case = Case::of(Call::head_step(&registers, command.into(), row));
        registers.clone_from(&case.answer.slots[0]);
        cases.push(case);
    }
    cases
}

fn random() -> Vec<Case> {
    let random = &mut Random::new(RANDOM as u64);
    let mut registers = vec![0; REGISTERS_BYTES];
    let step = |_| {
        let case = Case::of(head::step(random, &registers));
        if case.answer.refusal() == 0 {
            registers.clone_from(&case.answer.slots[0]);
        }
        case
    };
    (0..RANDOM).map(step).collect()
}
