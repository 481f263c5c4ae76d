//! A tune cut in sections, its rows seen one by one. No more than a section is held.

use lomqashe::{RECORD_BYTES, Record, Refusal, State, Tune};

/// Which rows of a tune are asked for, and how they are cut.
pub struct Run {
    pub tune: Tune,
    /// The state before the first of them, and how many rows came before it in earlier runs.
    pub state: State,
    pub before: u64,
    pub section: u32,
    pub most: u64,
}

pub struct Row {
    pub record: Record,
    /// The number of the section that begins with it, where there is a seam before it.
    pub seam: Option<u64>,
}

/// Where a walk stopped.
pub struct End {
    pub state: State,
    /// How many rows were seen.
    pub rows: u64,
    pub ended: bool,
}

impl Run {
    /// So many rows and those of earlier runs; a state's file may name any number.
    pub fn counted(&self, rows: u64) -> u64 {
        self.before.saturating_add(rows)
    }

    /// Hands each row to `see`, until that says false.
    pub fn walk(&self, mut see: impl FnMut(&Row) -> bool) -> Result<End, Refusal> {
        let mut end = End {
            state: self.state.clone(),
            rows: 0,
            ended: false,
        };
        // Sections are numbered from 1 on, as if earlier runs had been cut likewise.
        let earlier = self.before.div_ceil(self.section.into());
        let mut sections: u64 = 0;
        let longest = u64::from(self.section).min(self.most);
        let mut output = vec![0; longest as usize * RECORD_BYTES];
        loop {
            let rows = longest.min(self.most - end.rows) as u32;
            let given = self.tune.section(&mut end.state, rows, &mut output)?;
            sections += 1;
            end.rows += given.rows as u64;
            end.ended = given.ended;
            let (records, _) = output[..given.rows * RECORD_BYTES].as_chunks();
            for (i, bytes) in records.iter().enumerate() {
                let row = Row {
                    record: Record::from_bytes(bytes),
                    seam: (i == 0 && sections > 1).then_some(sections.saturating_add(earlier)),
                };
                if !see(&row) {
                    return Ok(end);
                }
            }
            if given.ended || end.rows == self.most {
                return Ok(end);
            }
        }
    }
}
