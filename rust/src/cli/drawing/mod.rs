//! The book drawn: strips of card one below the other, in millimetres, in columns where there are many. It is drawn as the
//! rows come, and no more than a strip is held.

mod labels;
mod plan;
mod strip;

pub use plan::Plan;

use super::walk::Row;
use plan::{Cutter, HEAD, Layout, MARGIN};
use std::io::{self, Write};
use strip::Strip;

const STYLE: &str = "\
text{font-family:sans-serif;font-size:4px;fill:#333}\
.title{font-size:7px}.channel{font-size:2.2px;text-anchor:end}.number{font-size:2.2px}.seam-name{fill:#b00}\
.card{fill:#ecdcb9;stroke:#8a744a;stroke-width:.3}.guide{stroke:#d3bf94;stroke-width:.15}\
.row{stroke:#c9b384;stroke-width:.12}.pattern{stroke:#6a5426;stroke-width:.4}\
.held{fill:#7aa6c2;fill-opacity:.45}.slot{fill:#1d1d1d}\
.seam{stroke:#b00;stroke-width:.5;stroke-dasharray:2 1.2}";

/// Writes a drawing while it can. Behind the first error it writes nothing, and keeps that error.
pub struct Drawing<W: Write> {
    out: W,
    layout: Layout,
    cutter: Cutter,
    /// The strip that is being drawn, and how many are.
    strip: Option<Strip>,
    strips: u64,
    trouble: Option<io::Error>,
}

impl<W: Write> Drawing<W> {
    pub fn new(out: W, layout: Layout) -> Drawing<W> {
        Drawing {
            out,
            layout,
            cutter: Cutter::default(),
            strip: None,
            strips: 0,
            trouble: None,
        }
    }

    /// The title, what the book has, and what the marks mean.
    pub fn head(&mut self, plan: &Plan, title: &str, ended: bool) {
        let Layout { width, height, .. } = self.layout;
        let ending = if ended { "to its end" } else { "not to its end" };
        let title = escaped(title);
        let Plan {
            rows,
            strikes,
            sections,
            ..
        } = *plan;
        let metres = plan.length() as f64 / 1e6;
        self.put(&format!(
            "<svg xmlns=\"http://www.w3.org/2000/svg\" width=\"{width:.3}mm\" height=\"{height:.3}mm\" \
             viewBox=\"0 0 {width:.3} {height:.3}\">\n<style>{STYLE}</style>\n\
             <rect width=\"100%\" height=\"100%\" fill=\"#fff\"/>\n\
             <text class=\"title\" x=\"{MARGIN}\" y=\"10\">{title}</text>\n\
             <text x=\"{MARGIN}\" y=\"17\">{rows} rows, {strikes} strikes, {sections} section(s), {metres:.3} m of card, \
             drawn {ending}</text>\n\
             <g transform=\"translate({MARGIN} 19.5)\"><rect class=\"slot\" width=\"5\" height=\"2.2\" rx=\".6\"/>\
             <text x=\"7\" y=\"2.6\">strike</text><rect class=\"held\" x=\"24\" width=\"5\" height=\"2.6\"/>\
             <text x=\"31\" y=\"2.6\">held row</text><path class=\"pattern\" d=\"M54 0v3\"/>\
             <text x=\"56\" y=\"2.6\">order (o), pattern (p)</text>\
             <path class=\"seam\" d=\"M116 0v3\"/><text x=\"118\" y=\"2.6\">seam</text>\
             <text class=\"number\" x=\"134\" y=\"2.6\">16</text><text x=\"138\" y=\"2.6\">row of its pattern</text></g>\n"
        ));
    }

    /// Draws a row; false where nothing can be written any more.
    pub fn row(&mut self, row: &Row) -> bool {
        if self.cutter.begins_strip(&row.record) {
            self.end_strip();
            self.strip = Some(Strip::new(row.record.start()));
        }
        if let Some(strip) = &mut self.strip {
            strip.row(row);
        }
        self.trouble.is_none()
    }

    pub fn finish(mut self) -> io::Result<()> {
        self.end_strip();
        self.put("</svg>\n");
        match self.trouble {
            Some(why) => Err(why),
            None => self.out.flush(),
        }
    }

    fn end_strip(&mut self) {
        let Some(strip) = self.strip.take() else { return };
        let (x, y) = self.layout.place(self.strips);
        self.strips += 1;
        let drawn = strip.finish(self.layout.room());
        self.put(&format!("<g transform=\"translate({x:.3} {y:.3})\">\n{drawn}</g>\n"));
    }

    fn put(&mut self, text: &str) {
        if self.trouble.is_none() {
            self.trouble = self.out.write_all(text.as_bytes()).err();
        }
    }
}

impl Layout {
    /// Where a strip stands: columns are read one after the other.
    fn place(&self, strip: u64) -> (f64, f64) {
        let (column, line) = (strip / self.strips_in_column, strip % self.strips_in_column);
        (
            MARGIN + self.column_width * column as f64,
            HEAD + plan::STRIP_HEIGHT * line as f64,
        )
    }

    /// How far a strip's labels may go.
    fn room(&self) -> f64 {
        self.column_width - MARGIN
    }
}

/// A text as XML takes it: without control characters too, which a file's name may have.
fn escaped(text: &str) -> String {
    let text: String = text
        .chars()
        .map(|c| if c.is_control() { '\u{FFFD}' } else { c })
        .collect();
    text.replace('&', "&amp;").replace('<', "&lt;").replace('>', "&gt;")
}

fn millimetres(micrometres: u64) -> f64 {
    micrometres as f64 / 1000.0
}
