//! Calls of the border's eleven functions, bytes in and bytes out, and the judge of what they answer: the original for
//! Open and Section, 01's reader for Measure and Read, 02's words for Strikes, closed tunes, the punch head and columns,
//! and 01's for Line and for every other refusal.

use crate::closed;
use crate::columns;
use crate::head;
use crate::player::bridge::{Original, open};
use crate::reader::{self, Lent};
use crate::rules::{self, COUNTS_BYTES};
use crate::sheet;
use crate::state::STATE_BYTES;
use crate::strikes;
use crate::tune::{OPENING_BYTES, Opening, RECORD_BYTES, Tune};

/// What lies in the bytes that a call may write, beforehand.
pub const UNTOUCHED: u8 = 0xA5;

#[derive(Clone, Copy, Debug, PartialEq, Eq, PartialOrd, Ord)]
pub enum Function {
    Measure,
    Read,
    Open,
    Section,
    Strikes,
    Line,
    IsClosed,
    OpenClosed,
    HeadStep,
    Store,
    Restore,
}

use Function::*;

impl Function {
    pub const ALL: [Function; 11] = [
        Measure, Read, Open, Section, Strikes, Line, IsClosed, OpenClosed, HeadStep, Store, Restore,
    ];

    pub fn name(self) -> &'static str {
        match self {
            Measure => "measure",
            Read => "read",
            Open => "open",
            Section => "section",
            Strikes => "strikes",
            Line => "line",
            IsClosed => "is_closed",
            OpenClosed => "open_closed",
            HeadStep => "head_step",
            Store => "store",
            Restore => "restore",
        }
    }
}

/// The slices that a function is lent, in the order of its arguments; empty behind them.
pub type Slots = [Vec<u8>; 5];

#[derive(Clone, Debug, PartialEq, Eq)]
pub struct Call {
    pub function: Function,
    /// Read's rate, Section's n, a step's command, the m of Store and Restore.
    pub number: u32,
    pub slots: Slots,
}

/// What a call gives, and the slots behind it.
#[derive(Clone, Debug, PartialEq, Eq)]
pub struct Answer {
    pub number: u32,
    pub slots: Slots,
}

impl Answer {
    pub fn refusal(&self) -> u8 {
        (self.number >> 24) as u8
    }

    /// The records of a section, none where it was refused.
    pub fn records(&self) -> impl Iterator<Item = &[u8]> {
        let rows = if self.refusal() == 0 { self.number & 0xFFFF } else { 0 };
        self.slots[4].chunks_exact(RECORD_BYTES).take(rows as usize)
    }
}

fn untouched(length: usize) -> Vec<u8> {
    vec![UNTOUCHED; length]
}

impl Call {
    fn new<const N: usize>(function: Function, number: u32, lent: [Vec<u8>; N]) -> Call {
        let mut lent = lent.into_iter();
        let slots = [(); 5].map(|_| lent.next().unwrap_or_default());
        Call {
            function,
            number,
            slots,
        }
    }

    pub fn measure(file: &[u8]) -> Call {
        Call::new(Measure, 0, [file.to_vec(), untouched(COUNTS_BYTES)])
    }

    pub fn read(file: &[u8], rate: u32, lent: &Lent) -> Call {
        let [orders, samples, cells] = lent.map(untouched);
        let slots = [file.to_vec(), orders, samples, cells, untouched(OPENING_BYTES)];
        Call::new(Read, rate, slots)
    }

    pub fn open(tune: &Tune) -> Call {
        Call::opening(Open, tune)
    }

    pub fn open_closed(tune: &Tune) -> Call {
        Call::opening(OpenClosed, tune)
    }

    fn opening(function: Function, tune: &Tune) -> Call {
        let [orders, cells, samples] = [&tune.orders, &tune.cells, &tune.samples].map(Vec::clone);
        let (opening, state) = (tune.opening.encode(), untouched(STATE_BYTES));
        Call::new(function, 0, [orders, cells, samples, opening, state])
    }

    pub fn is_closed(tune: &Tune) -> Call {
        Call::new(IsClosed, 0, [&tune.orders, &tune.cells, &tune.samples].map(Vec::clone))
    }

    /// From the bytes of a state, into an output with so many bytes to spare.
    pub fn section(tune: &Tune, state: Vec<u8>, n: u32, spare: usize) -> Call {
        let [orders, cells, samples] = [&tune.orders, &tune.cells, &tune.samples].map(Vec::clone);
        let output = untouched(n as usize * RECORD_BYTES + spare);
        Call::new(Section, n, [orders, cells, samples, state, output])
    }

    /// Strikes or Line.
    pub fn of_record(function: Function, record: &[u8], output: usize) -> Call {
        Call::new(function, 0, [record.to_vec(), untouched(output)])
    }

    pub fn head_step(registers: &[u8], command: u32, record: &[u8]) -> Call {
        Call::new(HeadStep, command, [registers.to_vec(), record.to_vec()])
    }

    /// Store or Restore, into an output of so many bytes.
    pub fn of_columns(function: Function, m: u32, input: &[u8], output: usize) -> Call {
        Call::new(function, m, [input.to_vec(), untouched(output)])
    }

    /// The tables that a call on a tune is lent, without opening values.
    pub fn tune(&self) -> Tune {
        let [orders, cells, samples, ..] = self.slots.clone();
        Tune {
            orders,
            cells,
            samples,
            ..Tune::default()
        }
    }

    /// The lengths of the tables that Read is lent.
    pub fn lent(&self) -> Lent {
        [1, 2, 3].map(|slot| self.slots[slot].len())
    }
}

/// The judge's answer.
pub fn answer(call: &Call) -> Answer {
    let mut slots = call.slots.clone();
    let given = match rules::broken(call).first() {
        Some(&(rule, _)) => Err(rule),
        None => write(call, &mut slots),
    };
    let number = given.unwrap_or_else(|rule| u32::from(rule) << 24);
    Answer { number, slots }
}

/// What a call gives that breaks none of the rules 9 to 17.
fn write(call: &Call, slots: &mut Slots) -> Result<u32, u8> {
    match call.function {
        Measure => {
            let lists = reader::measure(&slots[0])?;
            let counts = [lists.orders, lists.instruments, lists.patterns];
            slots[1] = counts.iter().flat_map(|&count| (count as u32).to_le_bytes()).collect();
        }
        Read => {
            let tune = reader::read_lent(&slots[0], &call.lent(), call.number)?;
            slots[1..].clone_from_slice(&[tune.orders, tune.samples, tune.cells, tune.opening.encode()]);
        }
        Open | OpenClosed => {
            let mut tune = call.tune();
            tune.opening = Opening::decode(&slots[3]);
            slots[4] = open(&tune).encode();
        }
        Section => {
            // Rows in bits 0 to 15, whether the tune has ended in bit 16.
            let mut original = Original::new(&call.tune());
            let rows = original.rows_recorded(&call.slots[3], call.number as usize, &mut slots[4]);
            slots[3] = original.bytes();
            return Ok(rows as u32 | u32::from(slots[3][9]) << 16);
        }
        Strikes => return Ok(strikes(slots)),
        Line => {
            let line = sheet::line(&slots[0]);
            slots[1][..line.len()].copy_from_slice(line.as_bytes());
            return Ok(line.len() as u32);
        }
        IsClosed => return Ok(closed::is_closed(&call.tune()).into()),
        HeadStep => head::step(&mut slots[0], call.number as u8, &call.slots[1]),
        Store => slots[1] = columns::store(&slots[0]),
        Restore => slots[1] = columns::restore(&slots[0]),
    }
    Ok(0)
}

/// The struck channels and 0 behind them, in the first 32 bytes; how many there are.
fn strikes(slots: &mut Slots) -> u32 {
    let struck = strikes::struck(&slots[0]);
    slots[1][..rules::STRIKES_BYTES].fill(0);
    slots[1][..struck.len()].copy_from_slice(&struck);
    struck.len() as u32
}
