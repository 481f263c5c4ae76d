//! The state between two sections.

use crate::bytes::{u16_at, u64_at};
use crate::levels::first_level_above;
use crate::{CHANNELS, LevelAbove, Refusal};
use std::fmt;

/// Where a tune stands between two sections, with all that its next row depends on. It is a string of bytes that can be
/// kept in a file and read again; include/lomqashe.h has the layout.
///
/// ```
/// use lomqashe::{State, Tune};
/// let tune = Tune::read(include_bytes!("../../oracle/examples/worked.s3m"), 60_000)?;
/// let mut rows = tune.rows(50)?;
/// rows.next();
/// let kept: Vec<u8> = rows.state().as_ref().to_vec();
/// let rest = tune.rows_from(State::try_from(&kept[..])?, 50)?;
/// assert_eq!(rest.count(), 2);
/// # Ok::<(), lomqashe::Refusal>(())
/// ```
#[derive(Clone, PartialEq, Eq, Hash)]
pub struct State(Box<[u8; State::BYTES]>);

impl State {
    /// How many bytes a state has.
    pub const BYTES: usize = 2_624;

    pub(crate) fn blank() -> State {
        State(Box::new([0; State::BYTES]))
    }

    /// Takes any bytes: a state that no section can go on from is refused there.
    pub fn from_bytes(bytes: &[u8; State::BYTES]) -> State {
        State(Box::new(*bytes))
    }

    /// Its bytes.
    pub fn as_bytes(&self) -> &[u8; State::BYTES] {
        &self.0
    }

    /// The path's part of the head: where it stands, with its loop, hold, speed, tempo and S infos, and its rate. The
    /// global volume, the switches, the start, the remainder and what may stand in the spare bytes are none of it: the order
    /// of the rows does not depend on them. With the remainder a turn would be found only where its remainder comes again,
    /// up to 510 turns later.
    pub(crate) fn path(&self) -> [u8; 48] {
        let mut out = [0; 48];
        out[..12].copy_from_slice(&self.0[..12]);
        out[12..16].copy_from_slice(&self.0[16..20]);
        out[16..].copy_from_slice(&self.0[32..64]);
        out
    }

    pub(crate) fn as_mut_bytes(&mut self) -> &mut [u8] {
        &mut self.0[..]
    }

    /// The index in the orders of the row to come.
    pub fn order(&self) -> u8 {
        self.0[0]
    }

    /// The row to come.
    pub fn row(&self) -> u8 {
        self.0[1]
    }

    /// Whether the tune has ended.
    pub fn ended(&self) -> bool {
        self.0[9] != 0
    }

    /// Where the next row starts on the card, in micrometres: behind the last row, the card's length.
    pub fn start(&self) -> u64 {
        u64_at(&self.0[..], 24)
    }

    /// How much further than [`State::start`] the rows so far go, which is less than a micrometre: a whole number of units of
    /// 1/(2 × tempo) micrometre, by the state's tempo. The next row's length has it, so that starts do not drift. A row that
    /// changes the tempo cuts it down to a whole number of the new units. No section goes on from a state that has 2 × tempo
    /// units or more.
    ///
    /// ```
    /// let tune = lomqashe::Tune::read(include_bytes!("../../oracle/examples/worked.s3m"), 60_001)?;
    /// let mut state = tune.open()?;
    /// assert_eq!(state.remainder(), 0);
    /// // Two rows at speed 6 and one at speed 3, at tempo 125: 15 × 5 × 60,001 units of 1/250 micrometre.
    /// tune.section(&mut state, 3, &mut [0; 3 * lomqashe::RECORD_BYTES])?;
    /// assert_eq!((state.start(), state.remainder()), (18_000, 75));
    /// # Ok::<(), lomqashe::Refusal>(())
    /// ```
    pub fn remainder(&self) -> u16 {
        u16_at(&self.0[..], 20)
    }

    /// The transposition of each channel, in semitones, as the tune was opened with: no row changes it. No section goes on
    /// from a state that has one outside −24 to 24.
    ///
    /// ```
    /// let mut tune = lomqashe::Tune::read(include_bytes!("../../oracle/examples/worked.s3m"), 60_000)?;
    /// tune.opening.channels[31].transposition = -5;
    /// let mut state = tune.open()?;
    /// tune.section(&mut state, 3, &mut [0; 3 * lomqashe::RECORD_BYTES])?;
    /// assert_eq!(state.transpositions()[30..], [0, -5]);
    /// # Ok::<(), lomqashe::Refusal>(())
    /// ```
    pub fn transpositions(&self) -> [i8; CHANNELS] {
        std::array::from_fn(|k| self.0[64 + 80 * k + 45] as i8)
    }

    /// The first level above its limit, by channel, and of a channel the volume before the pan. No section goes on from a state
    /// that has one (rule 17), and none gives such a state back.
    ///
    /// ```
    /// use lomqashe::{LevelAbove, State, Tune};
    /// let tune = Tune::read(include_bytes!("../../oracle/examples/worked.s3m"), 60_000)?;
    /// let mut bytes = *tune.open()?.as_bytes();
    /// assert_eq!(State::from_bytes(&bytes).first_level_above(), None);
    /// // The volume of channel 4.
    /// bytes[64 + 80 * 4 + 17] = 200;
    /// let state = State::from_bytes(&bytes);
    /// assert_eq!(state.first_level_above(), Some(LevelAbove::Volume { channel: 4, volume: 200, limit: 63 }));
    /// assert_eq!(tune.rows_from(state, 50).unwrap_err().number(), 17);
    /// # Ok::<(), lomqashe::Refusal>(())
    /// ```
    pub fn first_level_above(&self) -> Option<LevelAbove> {
        first_level_above(&self.0)
    }
}

impl AsRef<[u8]> for State {
    fn as_ref(&self) -> &[u8] {
        &self.0[..]
    }
}

/// Refuses bytes of another length than a state's, and nothing else, as [`State::from_bytes`].
impl TryFrom<&[u8]> for State {
    type Error = Refusal;

    fn try_from(bytes: &[u8]) -> Result<State, Refusal> {
        let bytes = bytes.try_into().map_err(|_| Refusal::WRONG_LENGTH)?;
        Ok(State::from_bytes(bytes))
    }
}

impl fmt::Debug for State {
    fn fmt(&self, f: &mut fmt::Formatter<'_>) -> fmt::Result {
        f.debug_struct("State")
            .field("order", &self.order())
            .field("row", &self.row())
            .field("ended", &self.ended())
            .field("start", &self.start())
            .field("remainder", &self.remainder())
            .finish_non_exhaustive()
    }
}
