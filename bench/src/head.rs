//! The punch head: the library beside plain Rust, which load and strike the same records.

use crate::clock::{best, mean, spread};
use crate::records;
use crate::tunes::KINDS;
use lomqashe::{PunchHead, RECORD_BYTES, Record};
use std::hint::black_box;

type Registers = [u8; PunchHead::BYTES];

/// 02: '0 command (1 load, 2 strike, 3 clear),
const LOAD: u8 = 1;
const STRIKE: u8 = 2;
const CLEAR: u8 = 3;

/// 1 status (bit 0 loaded, bit 1 late, bit 7 interrupt)'
const STATUS: usize = 1;
const LOADED: u8 = 1;
const LATE: u8 = 1 << 1;
const INTERRUPT: u8 = 1 << 7;

/// What is asked of both.
trait Head {
    fn load(&mut self, record: &Record) -> bool;
    fn strike(&mut self) -> bool;
    /// The rule that refuses a step, or 0.
    fn step(&mut self, command: u8, record: &[u8]) -> u8;
    /// The rule that refuses such registers, or 0.
    fn rule(registers: &[u8]) -> u8;
    fn registers(&self) -> Registers;
}

impl Head for PunchHead {
    fn load(&mut self, record: &Record) -> bool {
        self.load(record)
    }

    fn strike(&mut self) -> bool {
        self.strike()
    }

    fn step(&mut self, command: u8, record: &[u8]) -> u8 {
        self.step(command, record).map_or_else(|rule| rule.number(), |()| 0)
    }

    fn rule(registers: &[u8]) -> u8 {
        PunchHead::try_from(registers).map_or_else(|rule| rule.number(), |_| 0)
    }

    fn registers(&self) -> Registers {
        *self.as_bytes()
    }
}

struct Plain(Registers);

impl Plain {
    fn new() -> Plain {
        Plain([0; PunchHead::BYTES])
    }

    /// Whether a row was loaded before the command.
    fn taken(&mut self, command: u8, record: &[u8]) -> bool {
        let loaded = self.0[STATUS] & LOADED != 0;
        step(&mut self.0, command, record).expect("registers and record are good");
        loaded
    }
}

impl Head for Plain {
    fn load(&mut self, record: &Record) -> bool {
        !self.taken(LOAD, record.as_ref())
    }

    fn strike(&mut self) -> bool {
        self.taken(STRIKE, &[])
    }

    fn step(&mut self, command: u8, record: &[u8]) -> u8 {
        step(&mut self.0, command, record).map_or_else(|rule| rule, |()| 0)
    }

    fn rule(registers: &[u8]) -> u8 {
        step(&mut registers.to_vec(), 0, &[]).map_or_else(|rule| rule, |()| 0)
    }

    fn registers(&self) -> Registers {
        self.0
    }
}

/// 02: 'a step is handed a command and a record, keeps the command in byte 0, then acts.' A call, as the library's is.
#[inline(never)]
fn step(registers: &mut [u8], command: u8, record: &[u8]) -> Result<(), u8> {
    let registers: &mut Registers = registers.try_into().map_err(|_| 15)?;
    if registers[2..4] != [0, 0] || registers[STATUS] & !(LOADED | LATE | INTERRUPT) != 0 {
        return Err(15);
    }
    if command == LOAD && record.len() != RECORD_BYTES {
        return Err(13);
    }
    registers[0] = command;
    let loaded = registers[STATUS] & LOADED != 0;
    match command {
        LOAD if loaded => registers[STATUS] |= LATE,
        LOAD => {
            registers[4..8].copy_from_slice(&record[16..20]);
            registers[8..].copy_from_slice(&record[8..16]);
            registers[STATUS] |= LOADED;
        }
        STRIKE if loaded => registers[STATUS] = registers[STATUS] & !LOADED | INTERRUPT,
        CLEAR => registers[STATUS] &= !(LATE | INTERRUPT),
        _ => {}
    }
    Ok(())
}

/// Each record loaded and struck by the library.
pub fn library(records: &[Record]) {
    struck(PunchHead::new(), records);
}

/// The same by plain Rust.
pub fn plain(records: &[Record]) {
    struck(Plain::new(), records);
}

fn struck(mut head: impl Head, records: &[Record]) {
    for record in records {
        black_box(head.load(black_box(record)));
        black_box(head.strike());
    }
    black_box(head.registers());
}

/// What a head answers, and its registers behind it. Each record is loaded; an earlier one is late, any command meets the
/// waiting row, a strike follows, a load of a record short of a byte, any command once more, a clear, a strike on nothing.
fn told<H: Head>(mut head: H, records: &[Record]) -> Vec<(u8, Registers)> {
    let steps = |(n, record): (usize, &Record)| {
        let (any, late) = (n as u8, &records[n / 2]);
        let bytes: &[u8] = record.as_ref();
        let steps: [&dyn Fn(&mut H) -> u8; 8] = [
            &|head| head.load(record).into(),
            &|head| head.load(late).into(),
            &|head| head.step(any, bytes),
            &|head| head.strike().into(),
            &|head| head.step(LOAD, &bytes[1..]),
            &|head| head.step(any, bytes),
            &|head| head.step(CLEAR, &[]),
            &|head| head.strike().into(),
        ];
        steps.map(|step| (step(&mut head), head.registers()))
    };
    records.iter().enumerate().flat_map(steps).collect()
}

/// The rules that refuse registers of other lengths, and those of which one byte is not 0.
fn rules<H: Head>() -> Vec<u8> {
    let lengths = (0..2 * PunchHead::BYTES).map(|length| H::rule(&vec![0; length]));
    let bytes = (0..PunchHead::BYTES).flat_map(|at| (0..=255).map(move |byte| (at, byte)));
    let broken = bytes.map(|(at, byte)| {
        let mut registers = [0; PunchHead::BYTES];
        registers[at] = byte;
        H::rule(&registers)
    });
    lengths.chain(broken).collect()
}

fn same(records: &[Record]) -> bool {
    told(PunchHead::new(), records) == told(Plain::new(), records) && rules::<PunchHead>() == rules::<Plain>()
}

/// False where the two differ.
pub fn table() -> bool {
    println!("head: ns a row, loaded and struck");
    println!("rows   | library | plain | library to plain");
    for kind in &KINDS[..4] {
        let seeds = records::of_kind(kind);
        if !seeds.iter().all(|records| same(records)) {
            println!("{}: the heads differ", kind.name);
            return false;
        }
        let lines = seeds.each_ref().map(|records| times(records));
        println!(
            "{:6} | {:7.1} | {:5.1} | {}",
            kind.name,
            mean(&lines, 0),
            mean(&lines, 1),
            spread(lines.map(|[library, plain]| library / plain)),
        );
    }
    true
}

fn times(records: &[Record]) -> [f64; 2] {
    let times = best(&mut [&mut || library(records), &mut || plain(records)]);
    times.map(|ns| ns / records.len() as f64)
}
