//! A tune cut in sections.

use crate::{MOST_ROWS, RECORD_BYTES, Record, Refusal, State, Tune};
use std::fmt;
use std::iter::FusedIterator;

/// A section as it was cut: its records, and the states on both sides of it.
#[derive(Clone, Debug, PartialEq, Eq, Hash)]
pub struct CutSection {
    /// A record for each row.
    pub records: Vec<Record>,
    /// The state that it was cut from.
    pub before: State,
    /// The state behind it, which the next section is cut from.
    pub behind: State,
    /// Whether the tune has ended: only the last section says so.
    pub ended: bool,
}

/// An iterator over a tune's sections: what each call of Section gave. The last one says that the tune has ended, and may
/// have no rows. A refusal is the last item likewise.
#[derive(Clone)]
pub struct Sections<'t> {
    tune: &'t Tune,
    rows: u32,
    state: State,
    output: Vec<u8>,
    finished: bool,
}

impl<'t> Sections<'t> {
    pub(crate) fn new(tune: &'t Tune, state: State, rows: u32) -> Sections<'t> {
        Sections {
            tune,
            rows,
            state,
            // For more rows than that Section refuses the number itself.
            output: vec![0; rows.min(MOST_ROWS) as usize * RECORD_BYTES],
            finished: rows == 0,
        }
    }

    fn cut(&mut self) -> Result<CutSection, Refusal> {
        let before = self.state.clone();
        let given = self.tune.section(&mut self.state, self.rows, &mut self.output)?;
        self.finished = given.ended;
        let (records, _) = self.output.as_chunks();
        Ok(CutSection {
            records: records[..given.rows].iter().map(Record::from_bytes).collect(),
            before,
            behind: self.state.clone(),
            ended: given.ended,
        })
    }
}

impl Iterator for Sections<'_> {
    type Item = Result<CutSection, Refusal>;

    fn next(&mut self) -> Option<Self::Item> {
        if self.finished {
            return None;
        }
        let section = self.cut();
        self.finished |= section.is_err();
        Some(section)
    }
}

impl FusedIterator for Sections<'_> {}

impl fmt::Debug for Sections<'_> {
    fn fmt(&self, f: &mut fmt::Formatter<'_>) -> fmt::Result {
        f.debug_struct("Sections")
            .field("rows", &self.rows)
            .field("state", &self.state)
            .field("finished", &self.finished)
            .finish_non_exhaustive()
    }
}
