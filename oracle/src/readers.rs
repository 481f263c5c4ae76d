//! Where the original's own reading of a file (header.rs, pattern.rs and the player's constructor) differs from 01's,
//! which decides.

use crate::header::{Instrument, S3mHeader, parse_header};
use crate::pattern::{Pattern, unpack_all};
use crate::player::PlayerState;
use crate::reader;
use crate::sheet::RATE;
use crate::state::SAMPLE_RATE;
use crate::tune::{ROWS, SAMPLE_BYTES, Tune, le32};
use std::fmt::Debug;

pub fn report(file: &[u8]) -> String {
    let mut found = Differences::default();
    match (reader::read(file, RATE), parse_header(file)) {
        (Ok(tune), Ok(header)) => {
            see_cells(&mut found, &tune, &unpack_all(&header, file));
            see_samples(&mut found, &tune, &header.instruments);
            see_opening(&mut found, &tune, &header);
        }
        (Err(number), Ok(_)) => found.compare("file", &*format!("refused, {number}"), "read"),
        (Ok(_), Err(why)) => found.compare("file", "read", &*why.0),
        (Err(_), Err(_)) => {}
    }
    let count = found.0.len();
    found.0.concat() + &format!("readers: {count} differences\n")
}

#[derive(Default)]
struct Differences(Vec<String>);

impl Differences {
    fn compare<T: Debug + PartialEq>(&mut self, what: impl AsRef<str>, law: T, original: T) {
        let what = what.as_ref();
        if law != original {
            let line = format!("readers: {what}: 01 {law:?}, original {original:?}\n");
            self.0.push(line);
        }
    }
}

fn see_cells(found: &mut Differences, tune: &Tune, patterns: &[Pattern]) {
    found.compare("patterns", tune.patterns(), patterns.len());
    for (number, pattern) in patterns.iter().enumerate() {
        for row in 0..ROWS {
            for (channel, cell) in tune.row(number, row).enumerate() {
                let their = &pattern.rows[row][channel];
                let theirs = [their.note, their.instrument, their.volume, their.command, their.info];
                let place = format!("pattern {number} row {row} channel {channel}");
                found.compare(place, cell, &theirs[..]);
            }
        }
    }
}

fn see_samples(found: &mut Differences, tune: &Tune, instruments: &[Instrument]) {
    for (i, (ours, theirs)) in tune.samples.chunks_exact(SAMPLE_BYTES).zip(instruments).enumerate() {
        let name = |field: &str| format!("instrument {} {field}", i + 1);
        found.compare(name("type"), ours[0], theirs.kind);
        found.compare(name("volume"), ours[1], theirs.volume);
        found.compare(name("looped"), ours[2] != 0, theirs.is_looped());
        found.compare(name("length"), le32(ours, 4), theirs.length);
        found.compare(name("loop start"), le32(ours, 8), theirs.loop_start);
        found.compare(name("loop end"), le32(ours, 12), theirs.loop_end);
        found.compare(name("c5 speed"), le32(ours, 16), theirs.c5_speed);
    }
}

fn see_opening(found: &mut Differences, tune: &Tune, header: &S3mHeader) {
    let player = PlayerState::new(header, Vec::new(), Vec::new(), SAMPLE_RATE);
    let ours = &tune.opening;
    found.compare("orders", &tune.orders, &player.order);
    found.compare("speed", ours.speed, player.speed);
    found.compare("tempo", ours.tempo, player.bpm);
    found.compare("global volume", ours.global_volume, player.global_volume);
    found.compare("Amiga limits", ours.amiga_limits, player.amiga_limits);
    found.compare("fast slides", ours.fast_slides, player.fast_slides);
    for (i, (ours, theirs)) in ours.channels.iter().zip(&player.channels).enumerate() {
        let name = |field: &str| format!("channel {i} {field}");
        found.compare(name("pan"), ours.pan, theirs.pan);
        found.compare(name("muted"), ours.muted, theirs.muted);
        found.compare(name("right bank"), ours.right_bank, theirs.right_bank);
        found.compare(name("AdLib"), ours.adlib, theirs.adlib);
    }
}
