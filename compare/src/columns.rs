//! Stored and restored records: numbers of them about the library's tiles and blocks and up to the most, each call undone by
//! the other, and every way to break rule 16.

use crate::both::Both;
use lomqashe::{Record, Refusal};
use oracle::calls::{Answer, Call, Function};
use oracle::columns::MOST_RECORDS;
use oracle::generate::{columns, noise};
use oracle::random::Random;
use oracle::tune::RECORD_BYTES;

const BOTH: [Function; 2] = [Function::Store, Function::Restore];
/// About the library's tiles of 16 records and blocks of 768 behind the first record, and some thousands.
#[rustfmt::skip]
const CHOSEN: [u32; 23] = [
    1, 2, 3, 15, 16, 17, 18, 31, 32, 33, 34, 768, 769, 770, 784, 785, 786, 1_536, 1_537, 1_538, 1_553, 4_096, 5_003,
];
/// The most records of a random call.
const FEW: u32 = 300;
/// Lengths go up to this, with m from 0 to 3.
const LENGTHS: usize = 3 * RECORD_BYTES + 1;
/// None of them in the span.
const OUTSIDE: [u32; 6] = [0, 65_536, 65_537, 1 << 29, 1 << 31 | 1, u32::MAX];

pub fn compare(random: &mut Random, calls: u64) -> Result<String, String> {
    let (both, mut records) = (&mut Both::default(), 0);
    for (m, function) in CHOSEN
        .into_iter()
        .chain([MOST_RECORDS])
        .flat_map(|m| BOTH.map(|function| (m, function)))
    {
        let input = noise(random, m as usize * RECORD_BYTES);
        records += undone(both, &Call::of_columns(function, m, &input, input.len()))?;
    }
    for n in 0..calls {
        let call = columns::call(random, FEW);
        records += undone(both, &call).map_err(|why| format!("call {n}: {why}"))?;
    }
    lengths(both)?;
    outside(both)?;
    Ok(format!("{records} records stored and restored, {}", both.refusals()))
}

/// A call, and where it is taken the other one, which gives its input again; how many records that was.
fn undone(both: &mut Both, call: &Call) -> Result<u64, String> {
    let m = call.number;
    let of = |why| format!("{m} records: {why}");
    let answer = both.same(call).map_err(of)?;
    beside(call, &answer).map_err(of)?;
    if answer.refusal() > 0 {
        return Ok(0);
    }
    let [input, output, ..] = &answer.slots;
    let other = BOTH[usize::from(call.function == Function::Store)];
    let back = both
        .same(&Call::of_columns(other, m, output, output.len()))
        .map_err(of)?;
    let same = back.slots[1] == *input;
    same.then_some(m.into())
        .ok_or_else(|| of(format!("{} does not undo it", other.name())))
}

/// Each length of the input, of the output and of both.
fn lengths(both: &mut Both) -> Result<(), String> {
    for (m, length) in (0..=3).flat_map(|m| (0..=LENGTHS).map(move |length| (m, length))) {
        let good = m as usize * RECORD_BYTES;
        for (input, output) in [(length, good), (good, length), (length, length)] {
            refused_or_not(both, m, input, output)?;
        }
    }
    Ok(())
}

/// An m outside its span, with few records and with as many as it or its low 16 bits say; and the most, with sizes that are
/// off.
fn outside(both: &mut Both) -> Result<(), String> {
    for (m, records) in OUTSIDE.into_iter().flat_map(|m| [0, 1, 2].map(|records| (m, records))) {
        refused_or_not(both, m, records * RECORD_BYTES, records * RECORD_BYTES)?;
    }
    let most = MOST_RECORDS as usize * RECORD_BYTES;
    let above = most + RECORD_BYTES;
    let large = [
        (MOST_RECORDS + 1, above, above),
        (MOST_RECORDS + 1, most, most),
        (u32::MAX, most, most),
        (MOST_RECORDS, most, above),
        (MOST_RECORDS, most - 1, most),
    ];
    for (m, input, output) in large {
        refused_or_not(both, m, input, output)?;
    }
    Ok(())
}

fn refused_or_not(both: &mut Both, m: u32, input: usize, output: usize) -> Result<(), String> {
    for function in BOTH {
        let call = Call::of_columns(function, m, &vec![7; input], output);
        both.same(&call)
            .and_then(|answer| beside(&call, &answer))
            .map_err(|why| format!("m {m} with {input} and {output} bytes: {why}"))?;
    }
    Ok(())
}

/// rust/'s face is put the same input, where it takes m and the output's length from it as the call has them.
fn beside(call: &Call, answer: &Answer) -> Result<(), String> {
    let [input, output, ..] = &call.slots;
    let (records, rest) = input.as_chunks();
    let stores = call.function == Function::Store;
    if call.number as usize != records.len() || output.len() != input.len() || stores && !rest.is_empty() {
        return Ok(());
    }
    let ours = if stores {
        let records: Vec<Record> = records.iter().map(Record::from_bytes).collect();
        lomqashe::store(&records)
    } else {
        lomqashe::restore(input).map(|records| joined(&records))
    };
    let refusal = ours.as_ref().err().copied().map_or(0, Refusal::number);
    if refusal != answer.refusal() {
        return Err(format!("rust/ is refused by {refusal}"));
    }
    let same = ours.map_or(true, |bytes| bytes == answer.slots[1]);
    same.then_some(()).ok_or("rust/ gives other bytes".to_string())
}

fn joined(records: &[Record]) -> Vec<u8> {
    records.iter().flat_map(|record| *record.as_bytes()).collect()
}
