//! Labels on one line that never run into each other.

use std::fmt::Write;

/// How wide a letter is at the most, as a part of the font's size, and what stays free behind a label.
const LETTER: f64 = 0.62;
const GAP: f64 = 1.5;
/// Labels stand a little behind their line.
const INDENT: f64 = 0.6;

pub struct Label {
    pub x: f64,
    pub text: String,
    /// What is said where the text has no room.
    pub short: String,
    /// Whether it is left out rather than cut short.
    pub yields: bool,
}

/// A line of labels, each written when it is known where the next one stands.
pub struct Labels {
    class: &'static str,
    size: f64,
    y: f64,
    written: String,
    last: Option<Label>,
}

impl Labels {
    pub fn new(class: &'static str, size: f64, y: f64) -> Labels {
        Labels {
            class,
            size,
            y,
            written: String::new(),
            last: None,
        }
    }

    /// Adds a label behind the others. One that leaves no room even for the short text before it is left out.
    pub fn add(&mut self, label: Label) {
        let Some(last) = self.last.take() else {
            self.last = Some(label);
            return;
        };
        let room = label.x - last.x;
        if !last.yields && !self.fits(&last.short, room) {
            self.last = Some(last);
            return;
        }
        self.write(&last, room);
        self.last = Some(label);
    }

    /// The labels, of which the last goes no further than `end`.
    pub fn finish(mut self, end: f64) -> String {
        if let Some(last) = self.last.take() {
            self.write(&last, end - last.x);
        }
        self.written
    }

    fn write(&mut self, label: &Label, room: f64) {
        let text = match self.fits(&label.text, room) {
            true => &label.text,
            false if label.yields => return,
            false => &label.short,
        };
        let (class, x, y) = (self.class, label.x + INDENT, self.y);
        let _ = writeln!(
            self.written,
            "<text class=\"{class}\" x=\"{x:.3}\" y=\"{y}\">{text}</text>"
        );
    }

    fn fits(&self, text: &str, room: f64) -> bool {
        INDENT + text.len() as f64 * self.size * LETTER + GAP <= room
    }
}
