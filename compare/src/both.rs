//! A call put to the library and to the judge.

use crate::library;
use oracle::calls::{self, Answer, Call, Function};
use oracle::state::{CHANNEL_BYTES, HEAD_BYTES};
use oracle::tune::RECORD_BYTES;
use std::collections::BTreeMap;

/// How many calls were compared, by what they answered.
#[derive(Default)]
pub struct Both {
    pub calls: u64,
    refused: BTreeMap<u8, u64>,
}

impl Both {
    /// The answer that both give, with the same bytes in every slot.
    pub fn same(&mut self, call: &Call) -> Result<Answer, String> {
        let (ours, theirs) = (library::answer(call), calls::answer(call));
        self.calls += 1;
        *self.refused.entry(theirs.refusal()).or_default() += 1;
        compared(call, &ours, &theirs)?;
        Ok(theirs)
    }

    /// The same, and each of its records to Strikes and Line.
    pub fn section(&mut self, call: &Call) -> Result<Answer, String> {
        let answer = self.same(call)?;
        for (i, record) in answer.records().enumerate() {
            for function in [Function::Strikes, Function::Line] {
                self.same(&Call::of_record(function, record, 70))
                    .map_err(|why| format!("row {i}: {why}"))?;
            }
        }
        Ok(answer)
    }

    pub fn refusals(&self) -> String {
        let refused = self.refused.iter().filter(|&(&number, _)| number > 0);
        let refused: Vec<String> = refused.map(|(number, count)| format!("{number}: {count}")).collect();
        format!("{} calls (refused by {})", self.calls, refused.join(", "))
    }
}

pub fn compared(call: &Call, ours: &Answer, theirs: &Answer) -> Result<(), String> {
    let name = call.function.name();
    if ours.number != theirs.number {
        return Err(format!("{name} gives {:#x} and not {:#x}", ours.number, theirs.number));
    }
    for (slot, (ours, theirs)) in ours.slots.iter().zip(&theirs.slots).enumerate() {
        if let Some(at) = (0..ours.len()).find(|&at| ours[at] != theirs[at]) {
            let place = place(call, slot, at);
            return Err(format!("{name}: {place} is {} and not {}", ours[at], theirs[at]));
        }
    }
    Ok(())
}

fn place(call: &Call, slot: usize, at: usize) -> String {
    match (call.function, slot) {
        (Function::Open | Function::OpenClosed, 4) | (Function::Section, 3) if at >= HEAD_BYTES => {
            let channel = (at - HEAD_BYTES) / CHANNEL_BYTES;
            format!(
                "byte {} of channel {channel} of the state",
                (at - HEAD_BYTES) % CHANNEL_BYTES
            )
        }
        (Function::Open | Function::OpenClosed, 4) | (Function::Section, 3) => format!("byte {at} of the state"),
        (Function::Section, 4) | (Function::Restore, 1) => {
            format!("byte {} of record {}", at % RECORD_BYTES, at / RECORD_BYTES)
        }
        (Function::HeadStep, 0) => format!("register {at}"),
        (Function::Store, 1) if call.number > 0 => {
            let m = call.number as usize;
            format!("byte {} of column {}", at % m, at / m)
        }
        _ => format!("byte {at} of slot {slot}"),
    }
}
