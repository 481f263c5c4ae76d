//! What a drawing will have, and how its strips are laid out.

use super::super::walk::Row;
use super::millimetres;
use lomqashe::{CHANNELS, Record};

pub const MARGIN: f64 = 18.0;
pub const HEAD: f64 = 26.0;
/// The distance of two channels.
pub const PITCH: f64 = 3.0;
pub const CARD: f64 = PITCH * (CHANNELS as f64 + 1.0);
pub const STRIP_HEIGHT: f64 = CARD + 22.0;

/// A strip goes on for so many micrometres of card, or so many rows where they are short; it breaks at the next row.
const STRIP: u64 = 600_000;
const STRIP_ROWS: usize = 1024;

/// What the head needs.
const NARROWEST: f64 = 210.0;
/// Strips stand in one column up to this height.
const ONE_COLUMN: f64 = 1_500.0;
/// Programs draw on at most 32,767 pixels each way, of which there are 96 in 25.4 mm.
const LARGEST: f64 = 8_600.0;

/// Cuts rows into strips.
#[derive(Default)]
pub struct Cutter {
    start: u64,
    rows: usize,
}

impl Cutter {
    /// Whether the next row begins a strip.
    pub fn begins_strip(&mut self, record: &Record) -> bool {
        let begins = self.rows == 0 || self.rows == STRIP_ROWS || record.start() - self.start >= STRIP;
        if begins {
            self.start = record.start();
            self.rows = 0;
        }
        self.rows += 1;
        begins
    }
}

/// What a drawing will have.
#[derive(Default)]
pub struct Plan {
    pub rows: u64,
    pub strikes: u64,
    pub sections: u64,
    cutter: Cutter,
    strips: u64,
    longest: u64,
    /// Where the first row starts and the last ends on the card.
    start: u64,
    end: u64,
}

impl Plan {
    pub fn see(&mut self, row: &Row) {
        let record = &row.record;
        if self.rows == 0 {
            self.start = record.start();
        }
        self.strips += u64::from(self.cutter.begins_strip(record));
        self.end = record.start() + u64::from(record.length());
        self.longest = self.longest.max(self.end - self.cutter.start);
        self.rows += 1;
        self.strikes += u64::from(record.strike_mask().count_ones());
        self.sections += u64::from(self.rows == 1 || row.seam.is_some());
    }

    /// How much card is drawn, in micrometres.
    pub fn length(&self) -> u64 {
        self.end - self.start
    }

    /// One column, or as many as make the drawing about square; or, where no program would show it, what to do.
    pub fn layout(&self) -> Result<Layout, String> {
        let column_width = MARGIN + millimetres(self.longest);
        let mut layout = Layout::new(column_width, 1, self.strips);
        while layout.height > layout.width.max(ONE_COLUMN) {
            layout = Layout::new(column_width, layout.columns + 1, self.strips);
        }
        if layout.width.max(layout.height) <= LARGEST {
            return Ok(layout);
        }
        Err(format!(
            "the drawing would be {:.1} by {:.1} m, and programs show {:.1} m: draw fewer rows with --rows and --save, and go \
             on with --from",
            layout.width / 1e3,
            layout.height / 1e3,
            LARGEST / 1e3
        ))
    }
}

pub struct Layout {
    pub width: f64,
    pub height: f64,
    columns: u64,
    pub strips_in_column: u64,
    pub column_width: f64,
}

impl Layout {
    fn new(column_width: f64, columns: u64, strips: u64) -> Layout {
        let strips_in_column = strips.div_ceil(columns).max(1);
        let lines = strips.min(strips_in_column);
        Layout {
            width: (MARGIN + column_width * columns as f64).max(NARROWEST),
            height: HEAD + STRIP_HEIGHT * lines as f64 + 6.0,
            columns,
            strips_in_column,
            column_width: column_width.max(if columns == 1 { NARROWEST - MARGIN } else { 0.0 }),
        }
    }
}
