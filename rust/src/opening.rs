//! The opening values of a tune.

use crate::CHANNELS;
use crate::bytes::u32_at;

/// The bytes of the opening values, as they cross to the library.
pub(crate) const OPENING_BYTES: usize = 176;
/// Where they have the transpositions.
const TRANSPOSITIONS: usize = 144;

/// What a channel opens with.
///
/// ```
/// let mut tune = lomqashe::Tune::read(include_bytes!("../../oracle/examples/worked.s3m"), 60_000)?;
/// // The first row strikes middle C on channel 0: an octave up its frequency is twice as high.
/// tune.opening.channels[0].transposition = 12;
/// let first = tune.rows(1)?.next().expect("it has rows").channels()[0];
/// assert_eq!((first.frequency, first.last_note), (2.0 * 8363.0, 0x40));
/// tune.opening.channels[0].transposition = 25;
/// assert_eq!(tune.open().unwrap_err().number(), 10);
/// # Ok::<(), lomqashe::Refusal>(())
/// ```
#[derive(Clone, Copy, Debug, PartialEq, Eq, Hash)]
pub struct ChannelOpening {
    /// 0 (left) to 15 (right).
    pub pan: u8,
    /// Whether the file turns the channel off; it is carried, and the rows do not depend on it.
    pub muted: bool,
    /// Whether the channel is one of the right bank.
    pub right_bank: bool,
    /// Whether the channel is an AdLib one.
    pub adlib: bool,
    /// Semitones by which the channel's notes are moved, −24 to 24; a file has 0. Every pitch follows it: a note's number,
    /// octave × 12 + semitone, plus the transposition is cut to 0 through 107. The last note of a record stays the cell's.
    pub transposition: i8,
}

impl Default for ChannelOpening {
    /// A sounding PCM channel of the left bank, panned to the middle, as a C organ is tuned.
    fn default() -> ChannelOpening {
        ChannelOpening {
            pan: 8,
            muted: false,
            right_bank: false,
            adlib: false,
            transposition: 0,
        }
    }
}

/// What a tune opens with. Open refuses values that are out of range.
///
/// ```
/// use lomqashe::{Opening, Tune};
/// let tune = Tune { orders: vec![0xFF], samples: vec![], cells: vec![], opening: Opening::default() };
/// assert!(tune.open().is_ok());
/// ```
#[derive(Clone, Debug, PartialEq, Eq, Hash)]
pub struct Opening {
    /// Ticks of a row, 1 to 255.
    pub speed: u8,
    /// 32 to 255.
    pub tempo: u8,
    /// 0 to 64.
    pub global_volume: u8,
    /// Micrometres of card a second, 1 to 100,000.
    pub rate: u32,
    /// Whether frequencies stay within an Amiga's.
    pub amiga_limits: bool,
    /// Whether volume slides act on the first tick too.
    pub fast_slides: bool,
    /// From channel 0 on.
    pub channels: [ChannelOpening; CHANNELS],
}

impl Default for Opening {
    /// Speed 6, tempo 125, global volume 64, a card of 60 mm a second, no switch on.
    fn default() -> Opening {
        Opening {
            speed: 6,
            tempo: 125,
            global_volume: 64,
            rate: 60_000,
            amiga_limits: false,
            fast_slides: false,
            channels: [ChannelOpening::default(); CHANNELS],
        }
    }
}

impl Opening {
    pub(crate) fn to_bytes(&self) -> [u8; OPENING_BYTES] {
        let mut out = [0; OPENING_BYTES];
        out[..3].copy_from_slice(&[self.speed, self.tempo, self.global_volume]);
        out[3] = self.amiga_limits.into();
        out[4] = self.fast_slides.into();
        out[8..12].copy_from_slice(&self.rate.to_le_bytes());
        let (parts, transpositions) = out[16..].split_at_mut(TRANSPOSITIONS - 16);
        let parts = parts.chunks_exact_mut(4).zip(transpositions);
        for (channel, (part, byte)) in self.channels.iter().zip(parts) {
            let ChannelOpening {
                pan,
                muted,
                right_bank,
                adlib,
                transposition,
            } = *channel;
            part.copy_from_slice(&[pan, muted.into(), right_bank.into(), adlib.into()]);
            *byte = transposition as u8;
        }
        out
    }

    pub(crate) fn from_bytes(bytes: &[u8; OPENING_BYTES]) -> Opening {
        let mut out = Opening {
            speed: bytes[0],
            tempo: bytes[1],
            global_volume: bytes[2],
            rate: u32_at(bytes, 8),
            amiga_limits: bytes[3] != 0,
            fast_slides: bytes[4] != 0,
            channels: Default::default(),
        };
        let (parts, transpositions) = bytes[16..].split_at(TRANSPOSITIONS - 16);
        let parts = parts.chunks_exact(4).zip(transpositions);
        for (channel, (part, &byte)) in out.channels.iter_mut().zip(parts) {
            *channel = ChannelOpening {
                pan: part[0],
                muted: part[1] != 0,
                right_bank: part[2] != 0,
                adlib: part[3] != 0,
                transposition: byte as i8,
            };
        }
        out
    }
}
