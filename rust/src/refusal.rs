//! Why a call says no.

use std::error::Error;
use std::fmt;

/// The rule that a file, a tune, a state, a punch head or a stored sheet breaks, by its number in document 01 or 02.
///
/// ```
/// let refusal = lomqashe::Tune::read(b"no tune", 60_000).unwrap_err();
/// assert_eq!(refusal.number(), 1);
/// assert_eq!(refusal.to_string(), "the file is shorter than 96 bytes (rule 1)");
/// ```
#[derive(Clone, Copy, PartialEq, Eq, Hash)]
pub struct Refusal(u8);

impl Refusal {
    /// A length at the library's border is wrong, or a command no byte: no rule of a document.
    pub(crate) const WRONG_LENGTH: Refusal = Refusal(255);

    /// The refusal of a number; none for 0.
    pub(crate) fn new(number: u8) -> Option<Refusal> {
        (number != 0).then_some(Refusal(number))
    }

    /// 1 to 17, or 255 where a length at the library's border is wrong or a command is above 255.
    pub fn number(self) -> u8 {
        self.0
    }

    /// The rule in words.
    pub fn text(self) -> &'static str {
        match self.0 {
            1 => "the file is shorter than 96 bytes",
            2 => "bytes 44 to 47 of the file are not SCRM",
            3 => "there are 0 or over 255 orders, over 99 instruments or over 100 patterns",
            4 => "a list behind the header runs past the file",
            5 => "the header's speed is 0, its tempo below 32 or its global volume above 64",
            6 => "a lent table is not as long as the file's counts need",
            7 => "an instrument's 80 bytes run past the file",
            8 => "a packed pattern runs past the file before its 64th row ends",
            9 => "the tables do not have the sizes of a tune",
            10 => {
                "an opening value is out of range: speed, tempo, volume, a pan above 15, the card rate, or a transposition \
                 outside -24 to 24"
            }
            11 => {
                "the state is none that a section can go on from: its row or loop start is above 63, its speed 0, its \
                 tempo below 32, its start above 2^62, its card rate out of range, its remainder 2 * tempo or more, \
                 a frequency or target is not a number, or a transposition outside -24 to 24"
            }
            12 => "more than 65,535 rows are asked for, or the output is too short for them",
            13 => "the record is not 536 bytes, or the output is too short for its strikes or line",
            14 => "tune not closed",
            15 => {
                "the punch head's registers are not 16 bytes, their byte 2 or 3 is not 0, or a status bit other than 0, \
                 1 and 7 is set"
            }
            16 => {
                "the records to store or restore are not 1 to 65,535 of 536 bytes each, or the output has another length"
            }
            17 => "a channel of the state has a volume above 63, or 64 on an AdLib channel, or a pan above 15",
            _ => "a length at the library's border is wrong, or a command is above 255",
        }
    }
}

impl fmt::Display for Refusal {
    fn fmt(&self, f: &mut fmt::Formatter<'_>) -> fmt::Result {
        match *self {
            Refusal::WRONG_LENGTH => f.write_str(self.text()),
            _ => write!(f, "{} (rule {})", self.text(), self.0),
        }
    }
}

/// In words too: it is what `unwrap` shows.
impl fmt::Debug for Refusal {
    fn fmt(&self, f: &mut fmt::Formatter<'_>) -> fmt::Result {
        f.debug_tuple("Refusal").field(&self.0).field(&self.text()).finish()
    }
}

impl Error for Refusal {}
