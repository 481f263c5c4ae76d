//! The punch head's registers.

use crate::bytes::{u32_at, u64_at};
use crate::{Record, Refusal, ffi};
use std::fmt;

const LOADED: u8 = 1;
const LATE: u8 = 1 << 1;
const INTERRUPT: u8 = 1 << 7;

/// What a punch head says of itself.
#[derive(Clone, Copy, Debug, Default, PartialEq, Eq, Hash)]
pub struct HeadStatus {
    /// A row waits to be struck.
    pub loaded: bool,
    /// A load came while a row was waiting, and was not taken. It stays up to a clear.
    pub late: bool,
    /// A row was struck. It stays up to a clear.
    pub interrupt: bool,
}

/// A model of the table's punch head: sixteen registers, which commands change. A load takes a row's mask and start, a
/// strike punches the row that was taken, a clear drops what the head reports. include/lomqashe.h has the layout.
///
/// From [`PunchHead::new`] on, whatever the commands, the strikes done and one more where a row is loaded are as many as the
/// loads that were taken: no row is struck twice, and none that was taken is lost.
///
/// ```
/// let tune = lomqashe::Tune::read(include_bytes!("../../oracle/examples/worked.s3m"), 60_000)?;
/// let mut head = lomqashe::PunchHead::new();
/// let mut struck = 0;
/// for record in tune.rows(50)? {
///     assert!(head.load(&record), "the row before was struck");
///     assert_eq!((head.position(), head.mask()), (record.start(), record.strike_mask()));
///     assert!(head.strike() && head.status().interrupt);
///     head.clear();
///     struck += 1;
/// }
/// assert_eq!((struck, head.position()), (3, 14_400));
/// # Ok::<(), lomqashe::Refusal>(())
/// ```
#[derive(Clone, PartialEq, Eq, Hash)]
pub struct PunchHead([u8; PunchHead::BYTES]);

impl PunchHead {
    /// How many registers there are, of a byte each.
    pub const BYTES: usize = 16;

    /// The command that loads a row.
    pub const LOAD: u8 = 1;
    /// The command that strikes the row that is loaded.
    pub const STRIKE: u8 = 2;
    /// The command that drops late and interrupt.
    pub const CLEAR: u8 = 3;

    /// Any command that does nothing but stand in register 0.
    const IDLE: u8 = 0;

    /// Sixteen zero bytes: nothing is loaded.
    pub fn new() -> PunchHead {
        PunchHead([0; PunchHead::BYTES])
    }

    /// The head of such registers, or rule 15 where byte 2 or 3 is not 0 or a status bit other than 0, 1 and 7 is set.
    pub fn from_bytes(bytes: &[u8; PunchHead::BYTES]) -> Result<PunchHead, Refusal> {
        PunchHead::try_from(&bytes[..])
    }

    /// Its registers.
    pub fn as_bytes(&self) -> &[u8; PunchHead::BYTES] {
        &self.0
    }

    /// Loads a row's mask and start. False where the row before still waits to be struck: this one is then late and not
    /// taken, and is to be loaded again behind the strike.
    ///
    /// ```
    /// let tune = lomqashe::Tune::read(include_bytes!("../../oracle/examples/worked.s3m"), 60_000)?;
    /// let rows: Vec<_> = tune.rows(50)?.collect();
    /// let mut head = lomqashe::PunchHead::new();
    /// assert!(head.load(&rows[0]));
    /// assert!(!head.load(&rows[1]) && head.status().late);
    /// assert_eq!(head.position(), rows[0].start());
    /// assert!(head.strike() && head.load(&rows[1]));
    /// # Ok::<(), lomqashe::Refusal>(())
    /// ```
    #[must_use = "a row that was late is not taken, and is lost unless it is loaded again"]
    pub fn load(&mut self, record: &Record) -> bool {
        let waits = self.status().loaded;
        self.command_taken(PunchHead::LOAD, record.as_ref());
        !waits
    }

    /// Strikes the row that is loaded, which raises the interrupt. False where none is, and then nothing is done.
    pub fn strike(&mut self) -> bool {
        let loaded = self.status().loaded;
        self.command_taken(PunchHead::STRIKE, &[]);
        loaded
    }

    /// Drops late and interrupt; a row that is loaded stays so.
    pub fn clear(&mut self) {
        self.command_taken(PunchHead::CLEAR, &[]);
    }

    /// Any command, with the bytes of a record. Only a load looks at them: where they are not 536 it is refused, loaded or
    /// not (rule 13), and the registers stay as they were. Commands other than load, strike and clear stand in register 0
    /// and do nothing more.
    ///
    /// ```
    /// let mut head = lomqashe::PunchHead::new();
    /// head.step(200, &[])?;
    /// assert_eq!(head.command(), 200);
    /// assert_eq!(head.step(lomqashe::PunchHead::LOAD, &[0; 535]).unwrap_err().number(), 13);
    /// assert_eq!(head.command(), 200);
    /// # Ok::<(), lomqashe::Refusal>(())
    /// ```
    pub fn step(&mut self, command: u8, record: &[u8]) -> Result<(), Refusal> {
        ffi::head_step(&mut self.0, command.into(), record)?;
        Ok(())
    }

    fn command_taken(&mut self, command: u8, record: &[u8]) {
        self.step(command, record).expect("registers and record are good");
    }

    /// The last command.
    pub fn command(&self) -> u8 {
        self.0[0]
    }

    /// Whether a row is loaded, one was late, and one was struck.
    pub fn status(&self) -> HeadStatus {
        let is_set = |bit| self.0[1] & bit != 0;
        HeadStatus {
            loaded: is_set(LOADED),
            late: is_set(LATE),
            interrupt: is_set(INTERRUPT),
        }
    }

    /// A bit for each channel that the last row taken strikes.
    pub fn mask(&self) -> u32 {
        u32_at(&self.0, 4)
    }

    /// Where the last row taken starts on the card, in micrometres.
    pub fn position(&self) -> u64 {
        u64_at(&self.0, 8)
    }
}

impl Default for PunchHead {
    /// As [`PunchHead::new`].
    fn default() -> PunchHead {
        PunchHead::new()
    }
}

impl AsRef<[u8]> for PunchHead {
    fn as_ref(&self) -> &[u8] {
        &self.0
    }
}

/// Refuses what a step refuses (rule 15): a step on a copy is asked, which does nothing.
impl TryFrom<&[u8]> for PunchHead {
    type Error = Refusal;

    fn try_from(bytes: &[u8]) -> Result<PunchHead, Refusal> {
        ffi::head_step(&mut bytes.to_vec(), PunchHead::IDLE.into(), &[])?;
        Ok(PunchHead(bytes.try_into().expect("a step takes no other length")))
    }
}

impl fmt::Debug for PunchHead {
    fn fmt(&self, f: &mut fmt::Formatter<'_>) -> fmt::Result {
        f.debug_struct("PunchHead")
            .field("command", &self.command())
            .field("status", &self.status())
            .field("mask", &self.mask())
            .field("position", &self.position())
            .finish()
    }
}
