//! The row processor of a card cutting table: reads a Scream Tracker 3 tune and gives its row sheet, each row with its
//! start on the card in micrometres and what 32 channels do there.
//!
//! This crate is a thin, safe face of a library that is proved in Rattle: every call here is one of its eleven, and what it
//! answers equals that call's definition. These are Measure, Read, Open, Section, Strikes and Line of document 01, and of
//! document 02 the two that ask for closed tunes, the step of the punch head, and the two that store and restore records.
//! Nothing is proved of this crate itself, which carries bytes to and fro.
//!
//! ```
//! let file = include_bytes!("../../oracle/examples/worked.s3m");
//! let tune = lomqashe::Tune::read(file, 60_000)?;
//! let mut length = 0;
//! for record in tune.rows(50)? {
//!     print!("{}", record.line());
//!     length = record.start() + u64::from(record.length());
//! }
//! assert_eq!(length, 18_000);
//! # Ok::<(), lomqashe::Refusal>(())
//! ```
//!
//! [`Tune::sections`] cuts a tune as the table does, with the states on both sides of each section; [`Tune::rows_from`] goes
//! on from a state that was kept. A tune that jumps back has no end: [`Tune::first_repeat`] says where its rows come again.
//! [`Tune::open_closed`] opens only tunes that are sure to end. [`PunchHead`] is a model of the head that punches the rows.
//! [`store`] puts records in column order for an archive, and [`restore`] gives them back.

#![deny(missing_docs)]

mod bytes;
mod closed;
mod columns;
mod ffi;
mod head;
mod levels;
mod opening;
mod record;
mod refusal;
mod repeat;
mod rows;
mod sections;
mod state;
mod tune;

pub use closed::{Breach, CellPlace};
pub use columns::{restore, store};
pub use head::{HeadStatus, PunchHead};
pub use levels::LevelAbove;
pub use opening::{ChannelOpening, Opening};
pub use record::{ChannelRecord, Record, Strikes, Voice};
pub use refusal::Refusal;
pub use repeat::Repeat;
pub use rows::Rows;
pub use sections::{CutSection, Sections};
pub use state::State;
pub use tune::{Counts, Section, Tune, measure};

/// The channels of a tune.
pub const CHANNELS: usize = 32;

/// The bytes of a record.
pub const RECORD_BYTES: usize = 536;

/// The bytes of a pattern in the cells table.
pub const PATTERN_BYTES: usize = 10_240;

/// The bytes of a sample in the samples table.
pub const SAMPLE_BYTES: usize = 20;

/// The most rows that one section has, and the most records that are stored together.
pub const MOST_ROWS: u32 = 65_535;
