//! Calls of Store and Restore: a few records of any bytes, or each like the one before it, now and then with an m or sizes
//! that rule 16 refuses.

use super::noise;
use crate::calls::{Call, Function, UNTOUCHED};
use crate::columns::MOST_RECORDS;
use crate::random::Random;
use crate::tune::RECORD_BYTES;

/// Bytes at which differences wrap or nearly do.
pub const EDGES: [u8; 8] = [0, 1, 3, 5, 127, 128, 254, 255];
/// The most bytes that change from a record to the next that is like it.
const CHANGED: usize = 40;

/// Store or Restore of up to so many records, which now and then is refused.
pub fn call(random: &mut Random, most: u32) -> Call {
    let function = random.one(&[Function::Store, Function::Restore]);
    let m = 1 + random.below(most.into()) as u32;
    let input = bytes(random, m as usize);
    let mut call = Call::of_columns(function, m, &input, input.len());
    if random.chance(15) {
        break_call(random, &mut call);
    }
    call
}

/// So many records, or as many bytes of columns.
pub fn bytes(random: &mut Random, m: usize) -> Vec<u8> {
    match random.below(3) {
        0 => noise(random, m * RECORD_BYTES),
        1 => (0..m * RECORD_BYTES).map(|_| random.one(&EDGES)).collect(),
        _ => alike(random, m),
    }
}

fn alike(random: &mut Random, m: usize) -> Vec<u8> {
    let mut record = noise(random, RECORD_BYTES);
    let mut out = Vec::new();
    for _ in 0..m {
        out.extend(&record);
        for _ in 0..random.index(CHANGED + 1) {
            record[random.index(RECORD_BYTES)] = random.byte();
        }
    }
    out
}

fn break_call(random: &mut Random, call: &mut Call) {
    let lengths = call.slots.each_ref().map(Vec::len);
    let [input, output] = [lengths[0], lengths[1]].map(|length| other_length(random, length));
    match random.below(5) {
        0 => call.number = other_m(random, call.number),
        1 => call.slots[0].resize(input, 0),
        2 => call.slots[1].resize(output, UNTOUCHED),
        3 => {
            call.slots[0].resize(input, 0);
            call.slots[1].resize(output, UNTOUCHED);
        }
        _ => {
            call.slots[0].resize(input, 0);
            call.slots[1].resize(input, UNTOUCHED);
        }
    }
}

/// Outside the span, some with the same low bits or the same product in 32 bits, or one off.
fn other_m(random: &mut Random, m: u32) -> u32 {
    let far = (random.number() as u32).max(MOST_RECORDS + 1);
    let above = [
        MOST_RECORDS + 1,
        MOST_RECORDS + 1 + m,
        1 << 24 | m,
        1 << 29 | m,
        u32::MAX,
        far,
    ];
    let above = random.one(&above);
    random.weighted(&[(2, 0), (4, above), (1, m - 1), (1, m + 1)])
}

fn other_length(random: &mut Random, length: usize) -> usize {
    let any = random.index(2 * length);
    let near = [length - 1, length + 1, length - RECORD_BYTES, length + RECORD_BYTES];
    random.one(&[&near[..], &[0, any]].concat())
}
