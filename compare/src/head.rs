//! Steps of the punch head: every status with every command, broken registers and records, and lists of steps from sixteen
//! zero bytes on, with rust/'s head beside them, in which strikes and loads add up.

use crate::both::Both;
use lomqashe::PunchHead;
use oracle::calls::{Answer, Call};
use oracle::generate::head;
use oracle::head::{LATE, LOAD, LOADED, REGISTERS_BYTES, STATUS, STRIKE};
use oracle::random::Random;
use oracle::tune::RECORD_BYTES;

/// The most steps of a list.
const STEPS: usize = 100;
/// Lengths of registers go up to this, and those of records beside them.
const REGISTERS: usize = 40;
const RECORDS: [usize; 6] = [0, 20, 535, 536, 537, 600];

#[derive(Default)]
struct Told {
    steps: u64,
    taken: u64,
    late: u64,
    struck: u64,
}

pub fn compare(random: &mut Random, lists: u64) -> Result<String, String> {
    let (both, mut told) = (&mut Both::default(), Told::default());
    statuses(both, random)?;
    broken(both, random)?;
    let alone = both.calls;
    for n in 0..lists {
        list(both, random, &mut told).map_err(|why| format!("list {n}: {why}"))?;
    }
    let Told {
        steps,
        taken,
        late,
        struck,
    } = told;
    let calls = both.refusals();
    Ok(format!(
        "{alone} steps alone, {steps} in {lists} lists with {taken} loads taken, {late} late and {struck} strikes, {calls}"
    ))
}

fn any(random: &mut Random, length: usize) -> Vec<u8> {
    (0..length).map(|_| random.byte()).collect()
}

/// Each of 256 statuses with each of 256 commands, with a record and with one of another length.
fn statuses(both: &mut Both, random: &mut Random) -> Result<(), String> {
    for (status, command) in (0..=255).flat_map(|status| (0..=255).map(move |command| (status, command))) {
        let mut registers = head::registers(random);
        registers[STATUS] = status;
        for length in [RECORD_BYTES, random.one(&[0, 535, 537])] {
            let call = Call::head_step(&registers, command, &any(random, length));
            both.same(&call)
                .map_err(|why| format!("command {command} at status {status}: {why}"))?;
        }
    }
    Ok(())
}

/// Each value of the two bytes that are 0, each length of registers and others of the record, and commands about 256.
fn broken(both: &mut Both, random: &mut Random) -> Result<(), String> {
    for (command, length) in (0..=4)
        .chain(254..=260)
        .flat_map(|command| RECORDS.map(|length| (command, length)))
    {
        let record = any(random, length);
        for (at, byte) in [2, 3].into_iter().flat_map(|at| (0..=255).map(move |byte| (at, byte))) {
            let mut registers = head::registers(random);
            registers[at] = byte;
            both.same(&Call::head_step(&registers, command, &record))
                .map_err(|why| format!("command {command}, register {at} is {byte}: {why}"))?;
        }
        for size in 0..=REGISTERS {
            let mut registers = head::registers(random);
            registers.resize(size, 0);
            both.same(&Call::head_step(&registers, command, &record))
                .map_err(|why| format!("command {command}, {size} registers: {why}"))?;
        }
    }
    Ok(())
}

/// Steps that go on from each other; a refused one leaves the registers.
fn list(both: &mut Both, random: &mut Random, told: &mut Told) -> Result<(), String> {
    let (mut registers, mut ours) = (vec![0; REGISTERS_BYTES], PunchHead::new());
    let (mut taken, mut struck) = (0, 0);
    for n in 0..random.index(STEPS + 1) {
        let call = head::step(random, &registers);
        let answer = both.same(&call).map_err(|why| format!("step {n}: {why}"))?;
        if call.slots[0] == registers {
            beside(&mut ours, &call, &answer).map_err(|why| format!("step {n}: {why}"))?;
        }
        if answer.refusal() > 0 {
            continue;
        }
        let behind = &answer.slots[0];
        let [was, is] = [&registers, behind].map(|registers| registers[STATUS] & LOADED != 0);
        let loads = call.number == LOAD.into();
        taken += u64::from(loads && !was && is);
        struck += u64::from(call.number == STRIKE.into() && was && !is);
        told.late += u64::from(loads && was && behind[STATUS] & LATE != 0);
        if struck + u64::from(is) != taken {
            return Err(format!("step {n}: {struck} strikes, {taken} loads taken, loaded: {is}"));
        }
        told.steps += 1;
        registers.clone_from(behind);
    }
    told.taken += taken;
    told.struck += struck;
    Ok(())
}

/// rust/'s head is put the same step, where its command is a byte.
fn beside(ours: &mut PunchHead, call: &Call, answer: &Answer) -> Result<(), String> {
    let Ok(command) = u8::try_from(call.number) else {
        return Ok(());
    };
    let refusal = ours
        .step(command, &call.slots[1])
        .err()
        .map_or(0, |refusal| refusal.number());
    if refusal == answer.refusal() && ours.as_bytes()[..] == answer.slots[0] {
        return Ok(());
    }
    Err(format!("rust/ has {ours:?}, refused by {refusal}"))
}
