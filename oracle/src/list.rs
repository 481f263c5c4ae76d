//! The one list of recorded calls: README.md has its form.

use crate::calls::{self, Answer, Call, Function, Slots};
use crate::tune::le32;

/// The bytes of the program's rooms, one for each slot.
pub const ROOMS: [usize; 5] = [65_536, 1_048_576, 65_536, 65_536, 131_072];
/// Where a piece would be copied from, if its bytes follow.
const BYTES: usize = u32::MAX as usize;
/// Of a piece in the list: its place, its count, and where it is copied from.
const PIECE_BYTES: usize = 12;
/// Runs, and the sizes of cells, records' channels, samples, channels, one row, two and four, records and patterns, and of
/// five columns of 17, 18, 33, 34 and 122 bytes; five of 16 have the size of a channel.
const DISTANCES: [usize; 15] = [1, 5, 16, 20, 80, 160, 320, 640, 536, 10_240, 85, 90, 165, 170, 610];

/// A call with its answer.
#[derive(Debug, PartialEq, Eq)]
pub struct Case {
    pub call: Call,
    pub answer: Answer,
}

impl Case {
    pub fn of(call: Call) -> Case {
        let answer = calls::answer(&call);
        Case { call, answer }
    }
}

fn rooms() -> Slots {
    ROOMS.map(|bytes| vec![0; bytes])
}

/// The list of these cases; it is read again to see that it says them.
pub fn encode(cases: &[Case]) -> Vec<u8> {
    let mut out = Vec::new();
    put(&mut out, [cases.len()]);
    let mut rooms = rooms();
    cases.iter().for_each(|case| encode_case(&mut rooms, case, &mut out));
    let read = decode(&out).expect("the list can be read");
    assert!(read == cases, "the list says the cases");
    out
}

fn put<const N: usize>(out: &mut Vec<u8>, numbers: [usize; N]) {
    out.extend(numbers.iter().flat_map(|&number| (number as u32).to_le_bytes()));
}

fn encode_case(rooms: &mut Slots, case: &Case, out: &mut Vec<u8>) {
    let numbers = [case.call.function as u32 + 1, case.call.number, case.answer.number];
    put(out, numbers.map(|number| number as usize));
    let mut bytes = Vec::new();
    for ((room, before), after) in rooms.iter_mut().zip(&case.call.slots).zip(&case.answer.slots) {
        let given = encode_pieces(room, before, &mut bytes);
        let expected = encode_pieces(&mut room[..before.len()], after, &mut bytes);
        put(out, [before.len(), given, expected]);
    }
    out.extend(bytes);
}

/// Puts the pieces that make the first bytes of a room into `new`, and makes them so; how many there are.
fn encode_pieces(room: &mut [u8], new: &[u8], out: &mut Vec<u8>) -> usize {
    let pieces = pieces(room, new);
    for &[at, count, from] in &pieces {
        put(out, [at, count, from]);
        if from == BYTES {
            out.extend(&new[at..at + count]);
        }
    }
    room[..new.len()].copy_from_slice(new);
    pieces.len()
}

/// Place, count and source of each piece. Bytes that are not there yet repeat new ones before them, or follow.
fn pieces(room: &[u8], new: &[u8]) -> Vec<[usize; 3]> {
    let (mut out, mut at) = (Vec::<[usize; 3]>::new(), 0);
    while at < new.len() {
        let there = equal(&room[at..], &new[at..]);
        let (count, from) = repeated(new, at);
        let (new, passed) = match out.last_mut() {
            _ if there > PIECE_BYTES.max(count) => (None, there),
            _ if count > PIECE_BYTES => (Some([at, count, from]), count),
            Some([first, count, BYTES]) if *first + *count == at => {
                *count += 1;
                (None, 1)
            }
            _ if there > 0 => (None, there),
            _ => (Some([at, 1, BYTES]), 1),
        };
        out.extend(new);
        at += passed;
    }
    out
}

/// How many bytes from a place on repeat those at one of the distances before it, and which.
fn repeated(new: &[u8], at: usize) -> (usize, usize) {
    let sources = DISTANCES.iter().filter_map(|distance| at.checked_sub(*distance));
    let repeats = sources.map(|from| (equal(&new[from..], &new[at..]), from));
    repeats.max().unwrap_or_default()
}

/// How many bytes two parts begin with alike.
fn equal(one: &[u8], other: &[u8]) -> usize {
    one.iter().zip(other).take_while(|(a, b)| a == b).count()
}

/// The cases of a list, or where it is misread.
pub fn decode(bytes: &[u8]) -> Result<Vec<Case>, String> {
    let mut left = Bytes(bytes);
    let mut rooms = rooms();
    let count = left.number().ok_or("the list is empty")?;
    let case = |n: usize| decode_case(&mut left, &mut rooms).ok_or(format!("case {n} is misread"));
    let cases = (0..count).map(case).collect::<Result<_, _>>()?;
    let whole = left.0.is_empty().then_some(cases);
    whole.ok_or("bytes behind the list".to_string())
}

/// What is left to read.
struct Bytes<'a>(&'a [u8]);

impl<'a> Bytes<'a> {
    fn take(&mut self, count: usize) -> Option<&'a [u8]> {
        let (first, rest) = self.0.split_at_checked(count)?;
        self.0 = rest;
        Some(first)
    }

    fn number(&mut self) -> Option<usize> {
        self.take(4).map(|four| le32(four, 0) as usize)
    }

    /// Changes a room by so many pieces; none where one goes past the room.
    fn pieces(&mut self, count: usize, room: &mut [u8]) -> Option<()> {
        for _ in 0..count {
            let (at, count, from) = (self.number()?, self.number()?, self.number()?);
            room.get(at..at.checked_add(count)?)?;
            if from == BYTES {
                room[at..at + count].copy_from_slice(self.take(count)?);
            } else {
                room.get(from..from.checked_add(count)?)?;
                (0..count).for_each(|k| room[at + k] = room[from + k]);
            }
        }
        Some(())
    }
}

fn decode_case(left: &mut Bytes, rooms: &mut Slots) -> Option<Case> {
    let function = *Function::ALL.get(left.number()?.checked_sub(1)?)?;
    let [number, given] = [left.number()? as u32, left.number()? as u32];
    let mut heads = [[0; 3]; 5];
    for number in heads.as_flattened_mut() {
        *number = left.number()?;
    }
    let (mut before, mut after) = (Slots::default(), Slots::default());
    for (k, [length, given, expected]) in heads.into_iter().enumerate() {
        left.pieces(given, &mut rooms[k])?;
        let room = rooms[k].get_mut(..length)?;
        before[k] = room.to_vec();
        left.pieces(expected, room)?;
        after[k] = room.to_vec();
    }
    let call = Call {
        function,
        number,
        slots: before,
    };
    let answer = Answer {
        number: given,
        slots: after,
    };
    Some(Case { call, answer })
}
