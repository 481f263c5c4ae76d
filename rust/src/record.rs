//! A row's record.

use crate::bytes::{u32_at, u64_at};
use crate::{CHANNELS, RECORD_BYTES, Refusal, ffi};
use std::fmt;

const HEAD_BYTES: usize = 24;
const CHANNEL_BYTES: usize = 16;
const LINE_BYTES: usize = 64;

/// What happens in a row: the 536 bytes that a section writes for it. It is displayed as its line of the sheet.
///
/// ```
/// let tune = lomqashe::Tune::read(include_bytes!("../../oracle/examples/worked.s3m"), 60_000)?;
/// let record = tune.rows(50)?.next().expect("it has rows");
/// assert_eq!(record.to_string(), "0,0,0,0,6,125,0,7200,1");
/// assert_eq!(lomqashe::Record::try_from(record.as_ref())?, record);
/// # Ok::<(), lomqashe::Refusal>(())
/// ```
#[derive(Clone, PartialEq, Eq, Hash)]
pub struct Record([u8; RECORD_BYTES]);

/// An AdLib channel's voice.
#[derive(Clone, Copy, Debug, PartialEq, Eq, Hash)]
pub enum Voice {
    /// There is none.
    None,
    /// The note is keyed.
    Keyed,
    /// The key was let go.
    Released,
}

/// What a channel does in a row.
#[derive(Clone, Copy, Debug, PartialEq)]
pub struct ChannelRecord {
    /// In samples a second.
    pub frequency: f32,
    /// Where a slide to a note goes.
    pub target: f32,
    /// From 1; 0 is none.
    pub instrument: u8,
    /// 0 to 64.
    pub volume: u8,
    /// 0 (left) to 15 (right).
    pub pan: u8,
    /// Whether a note sounds.
    pub active: bool,
    /// The note byte: octave in the high nibble, semitone in the low one.
    pub last_note: u8,
    /// The tick that a note is put off to; 0 where none is.
    pub delay_tick: u8,
    /// The global volume that the voice has; the row's own is [`Record::global_volume`].
    pub voice_global_volume: u8,
    /// The AdLib voice.
    pub voice: Voice,
}

impl Record {
    /// The record of such bytes; include/lomqashe.h has the layout.
    pub fn from_bytes(bytes: &[u8; RECORD_BYTES]) -> Record {
        Record(*bytes)
    }

    /// Its bytes.
    pub fn as_bytes(&self) -> &[u8; RECORD_BYTES] {
        &self.0
    }

    /// The index in the orders.
    pub fn order(&self) -> u8 {
        self.0[0]
    }

    /// The number of the pattern.
    pub fn pattern(&self) -> u8 {
        self.0[1]
    }

    /// The row in the pattern, 0 to 63.
    pub fn row(&self) -> u8 {
        self.0[2]
    }

    /// Whether the row is held from the visit before: nothing happens in it.
    pub fn held(&self) -> bool {
        self.0[3] != 0
    }

    /// Ticks of the row.
    pub fn speed(&self) -> u8 {
        self.0[4]
    }

    /// 32 to 255; two fifths of it are the ticks in a second.
    pub fn tempo(&self) -> u8 {
        self.0[5]
    }

    /// The tune's global volume in the row, 0 to 64.
    pub fn global_volume(&self) -> u8 {
        self.0[6]
    }

    /// Where the row starts on the card, in micrometres.
    pub fn start(&self) -> u64 {
        u64_at(&self.0, 8)
    }

    /// How long the row is on the card, in micrometres: up to the next row's start. It is cut down to a whole number, and what
    /// is cut off goes into the next row's ([`State::remainder`](crate::State::remainder)), so rows that are alike may differ
    /// by one.
    pub fn length(&self) -> u32 {
        u32_at(&self.0, 20)
    }

    /// A bit for each channel that starts a note in the row.
    pub fn strike_mask(&self) -> u32 {
        u32_at(&self.0, 16)
    }

    /// The struck channels from the lowest frequency up, the way that a punch head goes from the bass side. [`Strikes`] has
    /// the order in full.
    pub fn strikes(&self) -> Strikes {
        let mut channels = [0; CHANNELS];
        let count = ffi::strikes(&self.0, &mut channels).expect("the lengths are right");
        Strikes {
            channels,
            count: count as usize,
        }
    }

    /// The row's line of the sheet, with its line feed.
    pub fn line(&self) -> String {
        let mut out = [0; LINE_BYTES];
        let count = ffi::line(&self.0, &mut out).expect("the lengths are right");
        out[..count as usize].iter().map(|&byte| char::from(byte)).collect()
    }

    /// What the 32 channels do, from channel 0 on.
    pub fn channels(&self) -> [ChannelRecord; CHANNELS] {
        std::array::from_fn(|i| ChannelRecord::decode(&self.0[HEAD_BYTES + i * CHANNEL_BYTES..][..CHANNEL_BYTES]))
    }
}

impl fmt::Debug for Record {
    fn fmt(&self, f: &mut fmt::Formatter<'_>) -> fmt::Result {
        write!(f, "Record({self})")
    }
}

/// The row's line of the sheet, without its line feed.
impl fmt::Display for Record {
    fn fmt(&self, f: &mut fmt::Formatter<'_>) -> fmt::Result {
        f.pad(self.line().trim_end())
    }
}

impl AsRef<[u8]> for Record {
    fn as_ref(&self) -> &[u8] {
        &self.0
    }
}

/// Refuses bytes of another length than a record's (rule 13).
impl TryFrom<&[u8]> for Record {
    type Error = Refusal;

    fn try_from(bytes: &[u8]) -> Result<Record, Refusal> {
        ffi::strikes(bytes, &mut [0; CHANNELS])?;
        Ok(Record(bytes.try_into().expect("the call takes no other length")))
    }
}

impl ChannelRecord {
    fn decode(part: &[u8]) -> ChannelRecord {
        ChannelRecord {
            frequency: f32::from_bits(u32_at(part, 0)),
            target: f32::from_bits(u32_at(part, 4)),
            instrument: part[8],
            volume: part[9],
            pan: part[10],
            active: part[11] != 0,
            last_note: part[12],
            delay_tick: part[13],
            voice_global_volume: part[14],
            voice: match part[15] {
                0 => Voice::None,
                1 => Voice::Keyed,
                _ => Voice::Released,
            },
        }
    }
}

/// The struck channels of a row, each once, by their [`ChannelRecord::frequency`], the lowest first.
///
/// Equal ones, and 0 and -0 are equal, stand by channel number. Minus infinity comes before every number and infinity
/// behind every number. Channels whose frequency is not a number come last, by channel number.
///
/// ```
/// let mut bytes = [0; lomqashe::RECORD_BYTES];
/// // Channels 0, 1 and 3 strike, 1 and 3 an octave below 0.
/// bytes[16] = 0b1011;
/// for (channel, frequency) in [(0, 880.0_f32), (1, 440.0), (3, 440.0)] {
///     bytes[24 + 16 * channel..][..4].copy_from_slice(&frequency.to_le_bytes());
/// }
/// let record = lomqashe::Record::from_bytes(&bytes);
/// assert_eq!(record.strikes().as_slice(), [1, 3, 0]);
/// for channel in record.strikes() {
///     println!("a slot of channel {channel} at {}", record.start());
/// }
/// ```
#[derive(Clone, Copy, PartialEq, Eq, Hash)]
pub struct Strikes {
    channels: [u8; CHANNELS],
    count: usize,
}

impl Strikes {
    /// The channels, the one with the lowest frequency first.
    pub fn as_slice(&self) -> &[u8] {
        &self.channels[..self.count]
    }
}

impl fmt::Debug for Strikes {
    fn fmt(&self, f: &mut fmt::Formatter<'_>) -> fmt::Result {
        f.debug_tuple("Strikes").field(&self.as_slice()).finish()
    }
}

impl IntoIterator for Strikes {
    type Item = u8;
    type IntoIter = std::iter::Take<std::array::IntoIter<u8, CHANNELS>>;

    fn into_iter(self) -> Self::IntoIter {
        self.channels.into_iter().take(self.count)
    }
}

impl<'s> IntoIterator for &'s Strikes {
    type Item = &'s u8;
    type IntoIter = std::slice::Iter<'s, u8>;

    fn into_iter(self) -> Self::IntoIter {
        self.as_slice().iter()
    }
}
