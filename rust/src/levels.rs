//! A level of a state that cannot be real. Plain Rust: nothing is proved of it, and a section is what refuses it.

use crate::State;
use std::fmt;

const HEAD_BYTES: usize = 64;
const CHANNEL_BYTES: usize = 80;
const PAN_LIMIT: u8 = 15;

/// A level above its limit, by its channel, counted from 0: [`State::first_level_above`].
#[derive(Clone, Copy, Debug, PartialEq, Eq, Hash)]
pub enum LevelAbove {
    /// A volume above 63, or 64 on an AdLib channel.
    Volume {
        /// The channel.
        channel: u8,
        /// Its volume.
        volume: u8,
        /// The most that this channel's volume can be.
        limit: u8,
    },
    /// A pan above 15.
    Pan {
        /// The channel.
        channel: u8,
        /// Its pan.
        pan: u8,
    },
}

impl fmt::Display for LevelAbove {
    fn fmt(&self, f: &mut fmt::Formatter<'_>) -> fmt::Result {
        match self {
            LevelAbove::Volume { channel, volume, limit } => {
                write!(f, "channel {channel} has volume {volume}, and the most is {limit}")
            }
            LevelAbove::Pan { channel, pan } => {
                write!(f, "channel {channel} has pan {pan}, and the most is {PAN_LIMIT}")
            }
        }
    }
}

pub(crate) fn first_level_above(state: &[u8; State::BYTES]) -> Option<LevelAbove> {
    let mut channels = state[HEAD_BYTES..].chunks_exact(CHANNEL_BYTES).zip(0..);
    channels.find_map(|(part, channel)| {
        let (volume, pan, is_adlib) = (part[17], part[18], part[42] != 0);
        let limit = if is_adlib { 64 } else { 63 };
        if volume > limit {
            return Some(LevelAbove::Volume { channel, volume, limit });
        }
        (pan > PAN_LIMIT).then_some(LevelAbove::Pan { channel, pan })
    })
}
