//! A tune: owned tables and opening values, and the calls on them.

use crate::bytes::u32_at;
use crate::closed::first_breach;
use crate::opening::OPENING_BYTES;
use crate::repeat::first_repeat;
use crate::{Breach, Opening, PATTERN_BYTES, Refusal, Repeat, Rows, SAMPLE_BYTES, Sections, State, ffi};

/// How many entries a file's tables have.
#[derive(Clone, Copy, Debug, PartialEq, Eq, Hash)]
pub struct Counts {
    /// 1 to 255.
    pub orders: usize,
    /// 0 to 99: as many samples.
    pub instruments: usize,
    /// 0 to 100.
    pub patterns: usize,
}

/// The numbers of orders, instruments and patterns of an S3M file, or why it is not taken (rules 1 to 5).
///
/// ```
/// let file = include_bytes!("../../oracle/examples/worked.s3m");
/// assert_eq!(lomqashe::measure(file)?.patterns, 1);
/// # Ok::<(), lomqashe::Refusal>(())
/// ```
pub fn measure(file: &[u8]) -> Result<Counts, Refusal> {
    let mut counts = [0; 12];
    ffi::measure(file, &mut counts)?;
    let [orders, instruments, patterns] = [0, 4, 8].map(|at| u32_at(&counts, at) as usize);
    Ok(Counts {
        orders,
        instruments,
        patterns,
    })
}

/// What a section gives beside its records.
#[derive(Clone, Copy, Debug, PartialEq, Eq, Hash)]
pub struct Section {
    /// How many records it wrote.
    pub rows: usize,
    /// Whether the tune has ended.
    pub ended: bool,
}

/// The tables of a tune and its opening values. include/lomqashe.h has the tables' layouts.
#[derive(Clone, Debug, PartialEq, Eq, Hash)]
pub struct Tune {
    /// 0xFE is skipped, 0xFF ends, any other is a pattern's number.
    pub orders: Vec<u8>,
    /// 20 bytes each.
    pub samples: Vec<u8>,
    /// 10,240 bytes a pattern.
    pub cells: Vec<u8>,
    /// Speed, tempo and the like, and what each channel opens with.
    pub opening: Opening,
}

impl Tune {
    /// Reads an S3M file. `rate` is the card's, in micrometres a second; Open refuses one that is out of range.
    ///
    /// ```
    /// let file = include_bytes!("../../oracle/examples/worked.s3m");
    /// let tune = lomqashe::Tune::read(file, 60_000)?;
    /// assert_eq!((tune.opening.speed, tune.opening.tempo), (6, 125));
    /// # Ok::<(), lomqashe::Refusal>(())
    /// ```
    pub fn read(file: &[u8], rate: u32) -> Result<Tune, Refusal> {
        let counts = measure(file)?;
        let mut orders = vec![0; counts.orders];
        let mut samples = vec![0; counts.instruments * SAMPLE_BYTES];
        let mut cells = vec![0; counts.patterns * PATTERN_BYTES];
        let mut opening = [0; OPENING_BYTES];
        ffi::read(file, rate, &mut orders, &mut samples, &mut cells, &mut opening)?;
        let opening = Opening::from_bytes(&opening);
        Ok(Tune {
            orders,
            samples,
            cells,
            opening,
        })
    }

    /// The state before the first row, or rule 9 or 10.
    pub fn open(&self) -> Result<State, Refusal> {
        let mut state = State::blank();
        let opening = self.opening.to_bytes();
        ffi::open(&self.orders, &self.cells, &self.samples, &opening, state.as_mut_bytes())?;
        Ok(state)
    }

    /// Whether the tune is closed, which makes it sure to end, or rule 9. A closed tune has no S with info 0; no B whose target
    /// is at or before a place in the orders that names its pattern, reached or not; and in each pattern at most one row whose
    /// last SB has p above 0. Patterns that no order names count too, but for B, since they have no place. From its opening
    /// on it has at most 16,384 rows for each order, held ones counted.
    ///
    /// ```
    /// let mut tune = lomqashe::Tune::read(include_bytes!("../../oracle/examples/worked.s3m"), 60_000)?;
    /// assert!(tune.is_closed()?);
    /// // B09 on channel 1 of row 1 becomes B00.
    /// tune.cells[160 + 5 + 4] = 0;
    /// assert!(!tune.is_closed()?);
    /// # Ok::<(), lomqashe::Refusal>(())
    /// ```
    pub fn is_closed(&self) -> Result<bool, Refusal> {
        let closed = ffi::is_closed(&self.orders, &self.cells, &self.samples)?;
        Ok(closed == 1)
    }

    /// What [`Tune::open`] gives, but of a closed tune only: rule 9, 10, or 14 where it is not closed.
    ///
    /// ```
    /// let mut tune = lomqashe::Tune::read(include_bytes!("../../oracle/examples/worked.s3m"), 60_000)?;
    /// assert_eq!(tune.open_closed()?, tune.open()?);
    /// tune.cells[3..5].copy_from_slice(&[19, 0]);
    /// let refusal = tune.open_closed().unwrap_err();
    /// assert_eq!(refusal.to_string(), "tune not closed (rule 14)");
    /// # Ok::<(), lomqashe::Refusal>(())
    /// ```
    pub fn open_closed(&self) -> Result<State, Refusal> {
        let mut state = State::blank();
        let opening = self.opening.to_bytes();
        ffi::open_closed(&self.orders, &self.cells, &self.samples, &opening, state.as_mut_bytes())?;
        Ok(state)
    }

    /// What keeps the tune from being closed, for a person to find it: the first S with info 0, else the first B that may go
    /// back, both by pattern, row and channel, else the first pattern with two rows that loop. None where the tune is closed.
    /// This is plain Rust beside the proved library: tests hold it against [`Tune::is_closed`], and nothing is proved of it.
    ///
    /// ```
    /// use lomqashe::{Breach, CellPlace};
    /// let mut tune = lomqashe::Tune::read(include_bytes!("../../oracle/examples/worked.s3m"), 60_000)?;
    /// assert_eq!(tune.first_breach(), None);
    /// tune.cells[160 + 5 + 4] = 0;
    /// let cell = CellPlace { pattern: 0, row: 1, channel: 1 };
    /// assert_eq!(tune.first_breach(), Some(Breach::JumpBack { cell, target: 0, order: 0 }));
    /// # Ok::<(), lomqashe::Refusal>(())
    /// ```
    pub fn first_breach(&self) -> Option<Breach> {
        first_breach(self)
    }

    /// Up to `rows` rows from the state on, each a record of 536 bytes in `output`; the state moves behind them. Where it is
    /// refused (rules 9, 11, 17 and 12) state and output stay as they were.
    ///
    /// ```
    /// let tune = lomqashe::Tune::read(include_bytes!("../../oracle/examples/worked.s3m"), 60_000)?;
    /// let mut state = tune.open()?;
    /// let mut output = [0; 2 * lomqashe::RECORD_BYTES];
    /// let first = tune.section(&mut state, 2, &mut output)?;
    /// assert_eq!((first.rows, first.ended), (2, false));
    /// let second = tune.section(&mut state, 2, &mut output)?;
    /// assert_eq!((second.rows, second.ended, state.start()), (1, true, 18_000));
    /// # Ok::<(), lomqashe::Refusal>(())
    /// ```
    pub fn section(&self, state: &mut State, rows: u32, output: &mut [u8]) -> Result<Section, Refusal> {
        let state = state.as_mut_bytes();
        let answer = ffi::section(&self.orders, &self.cells, &self.samples, state, rows, output)?;
        Ok(Section {
            rows: (answer & 0xFFFF) as usize,
            ended: answer >> 16 != 0,
        })
    }

    /// The rows of the tune from its opening on, cut in sections of so many rows (at least 1, at most 65,535). A tune that
    /// jumps back has no last row.
    pub fn rows(&self, section: u32) -> Result<Rows<'_>, Refusal> {
        self.rows_from(self.open()?, section)
    }

    /// The same from a state on, or why no section can go on from it (rules 9, 11 and 17).
    pub fn rows_from(&self, state: State, section: u32) -> Result<Rows<'_>, Refusal> {
        Rows::new(self, state, section)
    }

    /// The tune cut in sections of so many rows, 1 to 65,535, the last one shorter. More are refused in the first item (rule
    /// 12); of 0 rows no section comes.
    ///
    /// ```
    /// let tune = lomqashe::Tune::read(include_bytes!("../../oracle/examples/worked.s3m"), 60_000)?;
    /// for section in tune.sections(2)? {
    ///     let section = section?;
    ///     println!("{} rows from {} on", section.records.len(), section.before.start());
    ///     assert_eq!(section.ended, section.behind.start() == 18_000);
    /// }
    /// # Ok::<(), lomqashe::Refusal>(())
    /// ```
    pub fn sections(&self, rows: u32) -> Result<Sections<'_>, Refusal> {
        Ok(self.sections_from(self.open()?, rows))
    }

    /// The same from a state on. One that no section can go on from is refused in the first item (rules 9,
    /// 11 and 17).
    pub fn sections_from(&self, state: State, rows: u32) -> Sections<'_> {
        Sections::new(self, state, rows)
    }

    /// Where the tune begins to repeat, if it does so within `most_rows` rows and does not end before.
    ///
    /// ```
    /// let tune = lomqashe::Tune::read(include_bytes!("../../oracle/examples/worked.s3m"), 60_000)?;
    /// assert_eq!(tune.first_repeat(10_000)?, None);
    /// # Ok::<(), lomqashe::Refusal>(())
    /// ```
    pub fn first_repeat(&self, most_rows: u64) -> Result<Option<Repeat>, Refusal> {
        self.first_repeat_from(&self.open()?, most_rows)
    }

    /// The same from a state on: rows are counted from it, and what came before it is not known.
    pub fn first_repeat_from(&self, state: &State, most_rows: u64) -> Result<Option<Repeat>, Refusal> {
        first_repeat(self, state, most_rows)
    }
}
