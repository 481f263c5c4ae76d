//! The number of a note in a transposed channel, from 02's words.

use std::ops::RangeInclusive;

/// 02: 'Each channel gets a transposition of −24 to 24 semitones'.
pub const SPAN: RangeInclusive<i8> = -24..=24;

/// 02: 'The pitch step adds it to octave × 12 + semitone, uncut, then cuts to 0 through 107'. The octave is a note's high
/// nibble and the semitone its low one, up to 15.
pub fn number(note: u8, transposition: i8) -> i32 {
    let (octave, semitone) = (i32::from(note / 16), i32::from(note % 16));
    let uncut = octave * 12 + semitone + i32::from(transposition);
    uncut.clamp(0, 107)
}
