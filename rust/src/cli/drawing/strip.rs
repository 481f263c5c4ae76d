//! A strip of card with the rows that stand on it.

use super::super::walk::Row;
use super::labels::{Label, Labels};
use super::millimetres;
use super::plan::{CARD, PITCH};
use lomqashe::{CHANNELS, Record};
use std::fmt::Write;

const TOP: f64 = 6.0;
const BOTTOM: f64 = TOP + CARD;
/// How much of a row's length a slot takes.
const SLOT: f64 = 0.7;
/// Every so many rows of a pattern have their number at the card's edge.
const NUMBERED: u8 = 16;

pub struct Strip {
    start: u64,
    end: u64,
    /// The order and row of the record before.
    before: Option<(u8, u8)>,
    rows: String,
    seams: String,
    orders: Labels,
    numbers: Labels,
    seam_names: Labels,
}

impl Strip {
    /// A strip from this place on the card on.
    pub fn new(start: u64) -> Strip {
        Strip {
            start,
            end: start,
            before: None,
            rows: String::new(),
            seams: String::new(),
            orders: Labels::new("order", 4.0, TOP - 1.5),
            numbers: Labels::new("number", 2.2, BOTTOM + 2.6),
            seam_names: Labels::new("seam-name", 4.0, BOTTOM + 7.0),
        }
    }

    /// A row's line, its hold and its slots, and what it begins.
    pub fn row(&mut self, row: &Row) {
        let record = &row.record;
        let x = millimetres(record.start() - self.start);
        let length = millimetres(record.length().into());
        self.name(record, x);
        if record.held() {
            let _ = writeln!(
                self.rows,
                "<rect class=\"held\" x=\"{x:.3}\" y=\"{TOP}\" width=\"{length:.3}\" height=\"{CARD}\"/>"
            );
        }
        for channel in record.strikes() {
            let (y, slot) = (across(channel.into()) - 1.1, length * SLOT);
            let _ = writeln!(
                self.rows,
                "<rect class=\"slot\" x=\"{x:.3}\" y=\"{y:.3}\" width=\"{slot:.3}\" height=\"2.2\" rx=\".6\"/>"
            );
        }
        if let Some(section) = row.seam {
            self.seam(section, x);
        }
        self.before = Some((record.order(), record.row()));
        self.end = record.start() + u64::from(record.length());
    }

    /// The row's line, heavier where an order begins, with the order's name and the row's number. A strip's first row has
    /// both, but they yield to an order or a number that stands close behind.
    fn name(&mut self, record: &Record, x: f64) {
        let (order, pattern, number) = (record.order(), record.pattern(), record.row());
        let first = self.before.is_none();
        let begins = number == 0 && !record.held() || self.before.is_some_and(|(before, _)| before != order);
        let class = if begins { "pattern" } else { "row" };
        let _ = writeln!(self.rows, "<path class=\"{class}\" d=\"M{x:.3} {TOP}v{CARD}\"/>");
        if first || begins {
            self.orders.add(Label {
                x,
                text: format!("order {order} pattern {pattern}"),
                short: format!("o{order} p{pattern}"),
                yields: !begins,
            });
        }
        let jumped = self
            .before
            .is_some_and(|(_, before)| number != before && number != before + 1);
        if first || jumped || number % NUMBERED == 0 && !record.held() {
            self.numbers.add(Label {
                x,
                text: number.to_string(),
                short: number.to_string(),
                yields: first && number % NUMBERED != 0,
            });
        }
    }

    /// From the card's upper edge to the name below, so that it crosses no label.
    fn seam(&mut self, section: u64, x: f64) {
        let _ = writeln!(self.seams, "<path class=\"seam\" d=\"M{x:.3} {TOP}v{}\"/>", CARD + 3.5);
        self.seam_names.add(Label {
            x,
            text: format!("section {section}"),
            short: section.to_string(),
            yields: false,
        });
    }

    /// The strip as SVG; its labels go no further than `room`.
    pub fn finish(self, room: f64) -> String {
        let mut out = card(millimetres(self.end - self.start));
        out += &self.rows;
        out += &self.seams;
        for labels in [self.orders, self.numbers, self.seam_names] {
            out += &labels.finish(room);
        }
        let _ = writeln!(
            out,
            "<text y=\"{}\">{:.3} m</text>",
            BOTTOM + 12.0,
            self.start as f64 / 1e6
        );
        out
    }
}

/// Bare card with a guide for each channel.
fn card(length: f64) -> String {
    let mut out = format!("<rect class=\"card\" y=\"{TOP}\" width=\"{length:.3}\" height=\"{CARD}\"/>\n");
    for channel in 0..CHANNELS {
        let y = across(channel);
        let _ = writeln!(out, "<path class=\"guide\" d=\"M0 {y}h{length:.3}\"/>");
        let _ = writeln!(
            out,
            "<text class=\"channel\" x=\"-1.5\" y=\"{:.3}\">{channel}</text>",
            y + 0.8
        );
    }
    out
}

fn across(channel: usize) -> f64 {
    TOP + PITCH * (channel as f64 + 1.0)
}
