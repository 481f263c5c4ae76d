//! Runs the original row processor of oxideav-s3m as the judge of the port.

pub mod calls;
pub mod card;
pub mod closed;
pub mod columns;
pub mod cover;
pub mod generate;
pub mod head;
mod layout;
pub mod levels;
pub mod list;
pub mod plan;
pub mod random;
pub mod reader;
pub mod readers;
pub mod record;
pub mod rules;
pub mod sheet;
pub mod state;
pub mod strikes;
pub mod transposed;
pub mod tune;
pub mod writer;

#[path = "standins/factors.rs"]
pub mod factors;
#[path = "standins/oxideav_core.rs"]
pub mod oxideav_core;
#[path = "standins/samples.rs"]
pub mod samples;

#[cfg(test)]
mod path;
#[cfg(test)]
mod tests;

// The original's modules header, opl2, pattern and player, patched by build.rs.
include!(concat!(env!("OUT_DIR"), "/original.rs"));
