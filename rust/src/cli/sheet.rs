//! The lines of a sheet.

use lomqashe::{ChannelRecord, Record, Refusal, Voice};
use std::io::{self, Write};

const TITLE: &str = "order,pattern,row,held,speed,tempo,start,length,strikes";
const STRIKES_TITLE: &str = "order,pattern,row,held,start,channels";
const CHANNEL_TITLE: &str = "order,pattern,row,held,speed,tempo,global_volume,start,length,channel,struck,active,\
    frequency,target,instrument,volume,pan,last_note,delay_tick,voice_global_volume,voice";

/// What a sheet has lines of.
#[derive(Clone, Copy, PartialEq, Eq)]
pub enum Form {
    /// A row each.
    Rows,
    /// A row each, with the channels that are struck.
    Strikes,
    /// A row and channel each.
    Channels,
}

/// Prints a sheet while it can. Behind the first error it prints nothing, and keeps that error.
pub struct Printer<W: Write> {
    out: W,
    form: Form,
    trouble: Option<io::Error>,
}

impl<W: Write> Printer<W> {
    pub fn new(out: W, form: Form) -> Printer<W> {
        let mut printer = Printer {
            out,
            form,
            trouble: None,
        };
        let title = match form {
            Form::Rows => TITLE,
            Form::Strikes => STRIKES_TITLE,
            Form::Channels => CHANNEL_TITLE,
        };
        printer.put(&format!("{title}\n"));
        printer
    }

    pub fn is_open(&self) -> bool {
        self.trouble.is_none()
    }

    pub fn row(&mut self, record: &Record) {
        match self.form {
            Form::Rows => self.put(&record.line()),
            Form::Strikes => self.put(&strikes_line(record)),
            Form::Channels => {
                for (number, channel) in record.channels().iter().enumerate() {
                    self.put(&channel_line(record, number, channel));
                }
            }
        }
    }

    /// The last line: `end`, `more` or `repeats`, the rows and the card's length.
    pub fn last(&mut self, word: &str, rows: u64, length: u64) {
        self.put(&format!("{word},{rows},{length}\n"));
    }

    pub fn refused(&mut self, refusal: Refusal) {
        self.put(&format!("refused,{}\n", refusal.number()));
    }

    /// What became of the sheet.
    pub fn finish(mut self) -> io::Result<()> {
        match self.trouble {
            Some(why) => Err(why),
            None => self.out.flush(),
        }
    }

    fn put(&mut self, text: &str) {
        if self.is_open() {
            self.trouble = self.out.write_all(text.as_bytes()).err();
        }
    }
}

fn strikes_line(record: &Record) -> String {
    let channels: Vec<String> = record.strikes().into_iter().map(|k| k.to_string()).collect();
    format!(
        "{},{},{},{},{},{}\n",
        record.order(),
        record.pattern(),
        record.row(),
        u8::from(record.held()),
        record.start(),
        channels.join(" "),
    )
}

fn channel_line(record: &Record, number: usize, channel: &ChannelRecord) -> String {
    let row = format!(
        "{},{},{},{},{},{},{},{},{}",
        record.order(),
        record.pattern(),
        record.row(),
        u8::from(record.held()),
        record.speed(),
        record.tempo(),
        record.global_volume(),
        record.start(),
        record.length(),
    );
    format!(
        "{row},{number},{},{},{},{},{},{},{},{},{},{},{}\n",
        record.strike_mask() >> number & 1,
        u8::from(channel.active),
        channel.frequency,
        channel.target,
        channel.instrument,
        channel.volume,
        channel.pan,
        channel.last_note,
        channel.delay_tick,
        channel.voice_global_volume,
        match channel.voice {
            Voice::None => "none",
            Voice::Keyed => "keyed",
            Voice::Released => "released",
        }
    )
}
