//! The rows of a tune, one by one.

use crate::{MOST_ROWS, RECORD_BYTES, Record, Refusal, State, Tune};
use std::fmt;
use std::iter::FusedIterator;

/// An iterator over a tune's records. It cuts the tune in sections; what it gives does not depend on where.
#[derive(Clone)]
pub struct Rows<'t> {
    tune: &'t Tune,
    section: u32,
    /// The states before and behind the section that is being given.
    before: State,
    behind: State,
    records: Vec<u8>,
    /// Records of the section that were given, and all of them.
    given: usize,
    rows: usize,
    finished: bool,
    refusal: Option<Refusal>,
}

impl<'t> Rows<'t> {
    /// Refuses what Section does: a section of no rows is asked for.
    pub(crate) fn new(tune: &'t Tune, mut state: State, section: u32) -> Result<Rows<'t>, Refusal> {
        tune.section(&mut state, 0, &mut [])?;
        let section = section.clamp(1, MOST_ROWS);
        Ok(Rows {
            tune,
            section,
            before: state.clone(),
            behind: state,
            records: vec![0; section as usize * RECORD_BYTES],
            given: 0,
            rows: 0,
            finished: false,
            refusal: None,
        })
    }

    /// The state behind the last record given, whatever the cut: [`Tune::rows_from`] goes on from it with the next one. It is
    /// the state that the rows started from where none was given yet. Where `next` gave None it is the state behind all rows:
    /// ended, unless the rows were refused.
    ///
    /// Within a section it is worked out anew, at the cost of the section's rows so far.
    pub fn state(&self) -> State {
        if self.finished || self.given == self.section as usize {
            return self.behind.clone();
        }
        let mut state = self.before.clone();
        let mut again = vec![0; self.given * RECORD_BYTES];
        self.tune
            .section(&mut state, self.given as u32, &mut again)
            .expect("the same rows were given before");
        state
    }

    /// Why the rows stopped, where it is not that the tune has ended. The rows of a tune from its opening on are never
    /// refused within 2^32 rows.
    pub fn refusal(&self) -> Option<Refusal> {
        self.refusal
    }

    fn next_section(&mut self) {
        self.before = self.behind.clone();
        self.given = 0;
        self.rows = match self.tune.section(&mut self.behind, self.section, &mut self.records) {
            Ok(section) => section.rows,
            Err(refusal) => {
                self.refusal = Some(refusal);
                0
            }
        };
        self.finished = self.rows == 0;
    }
}

impl Iterator for Rows<'_> {
    type Item = Record;

    fn next(&mut self) -> Option<Record> {
        if self.given == self.rows && !self.finished {
            self.next_section();
        }
        if self.given == self.rows {
            return None;
        }
        let bytes = &self.records[self.given * RECORD_BYTES..][..RECORD_BYTES];
        self.given += 1;
        Some(Record::from_bytes(bytes.try_into().expect("a record's bytes")))
    }
}

impl FusedIterator for Rows<'_> {}

impl fmt::Debug for Rows<'_> {
    fn fmt(&self, f: &mut fmt::Formatter<'_>) -> fmt::Result {
        f.debug_struct("Rows")
            .field("section", &self.section)
            .field("before", &self.before)
            .field("given", &self.given)
            .field("finished", &self.finished)
            .field("refusal", &self.refusal)
            .finish_non_exhaustive()
    }
}
