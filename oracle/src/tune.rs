//! The tables that a call is lent, byte for byte as document 01 lays them out, with the opening values.

use crate::layout::{self, Layout};
use crate::opl2::AdLibInstrument;
use crate::samples::{Body, SampleBody};

pub const CHANNELS: usize = 32;
pub const ROWS: usize = 64;
pub const CELL: usize = 5;
pub const ROW_BYTES: usize = CHANNELS * CELL;
pub const PATTERN_BYTES: usize = ROWS * ROW_BYTES;
pub const SAMPLE_BYTES: usize = 20;
pub const OPENING_BYTES: usize = 176;
/// Where opening values have the transposition of channel 0; the others follow.
pub const TRANSPOSITIONS: usize = 144;
pub const RECORD_BYTES: usize = 536;

/// 01's worked example as a file.
pub const WORKED: &[u8] = include_bytes!("../examples/worked.s3m");

/// The record of a row.
pub type Record = [u8; RECORD_BYTES];

/// An unnamed cell: no note, no instrument, no volume, no command, info 0.
pub const EMPTY_CELL: [u8; CELL] = [255, 0, 255, 0, 0];

#[derive(Clone, Copy, Debug, Default, PartialEq, Eq)]
pub struct ChannelOpening {
    pub pan: u8,
    pub muted: bool,
    pub right_bank: bool,
    pub adlib: bool,
    /// In semitones.
    pub transposition: i8,
}

#[derive(Clone, Debug, Default, PartialEq, Eq)]
pub struct Opening {
    pub speed: u8,
    pub tempo: u8,
    pub global_volume: u8,
    pub amiga_limits: bool,
    pub fast_slides: bool,
    pub rate: u32,
    pub channels: [ChannelOpening; CHANNELS],
}

#[derive(Clone, Debug, Default, PartialEq, Eq)]
pub struct Tune {
    pub orders: Vec<u8>,
    pub samples: Vec<u8>,
    pub cells: Vec<u8>,
    pub opening: Opening,
}

impl Tune {
    pub fn patterns(&self) -> usize {
        self.cells.len() / PATTERN_BYTES
    }

    pub fn sample_count(&self) -> usize {
        self.samples.len() / SAMPLE_BYTES
    }

    /// A sample for the original. Types 2 to 7 are AdLib, whose registers are never read.
    pub fn sample(&self, index: usize) -> SampleBody {
        let b = &self.samples[index * SAMPLE_BYTES..][..SAMPLE_BYTES];
        let adlib = (2..=7).contains(&b[0]);
        SampleBody {
            pcm: Body {
                frames: le32(b, 4) as usize,
            },
            pcm_right: None,
            loop_start: le32(b, 8),
            loop_end: le32(b, 12),
            looped: b[2] != 0,
            volume: b[1],
            c5_speed: le32(b, 16),
            adlib: adlib.then(|| AdLibInstrument::from_registers(&[0; 11])),
        }
    }

    /// The cells of a row, channel by channel: note, instrument, volume, command, info.
    pub fn row(&self, pattern: usize, row: usize) -> impl Iterator<Item = &[u8]> {
        let from = pattern * PATTERN_BYTES + row * ROW_BYTES;
        self.cells[from..from + ROW_BYTES].chunks_exact(CELL)
    }

    /// What an order's place holds for a walk: a pattern that is there, or none.
    pub fn pattern_at(&self, order: usize) -> Option<usize> {
        let named = usize::from(*self.orders.get(order)?);
        (named < 0xFE && named < self.patterns()).then_some(named)
    }
}

impl Opening {
    pub fn encode(&self) -> Vec<u8> {
        layout::written(OPENING_BYTES, |layout| self.clone().lay(layout))
    }

    pub fn decode(bytes: &[u8]) -> Opening {
        let mut opening = Opening::default();
        layout::read(bytes, |layout| opening.lay(layout));
        opening
    }

    fn lay(&mut self, layout: &mut Layout) {
        layout.bytes([&mut self.speed, &mut self.tempo, &mut self.global_volume]);
        layout.flags([&mut self.amiga_limits, &mut self.fast_slides]);
        layout.next([0; 3]);
        layout.number(&mut self.rate);
        layout.next([0; 4]);
        for ch in &mut self.channels {
            layout.bytes([&mut ch.pan]);
            layout.flags([&mut ch.muted, &mut ch.right_bank, &mut ch.adlib]);
        }
        for ch in &mut self.channels {
            layout.signed(&mut ch.transposition);
        }
    }
}

pub fn le16(b: &[u8], at: usize) -> u16 {
    u16::from_le_bytes([b[at], b[at + 1]])
}

pub fn le32(b: &[u8], at: usize) -> u32 {
    u32::from_le_bytes([b[at], b[at + 1], b[at + 2], b[at + 3]])
}

pub fn le64(b: &[u8], at: usize) -> u64 {
    u64::from(le32(b, at)) | u64::from(le32(b, at + 4)) << 32
}
