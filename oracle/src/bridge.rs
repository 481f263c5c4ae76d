//! The original's player, run row by row. build.rs makes this a part of the patched player.rs, so that it sees its
//! private functions and fields.

use super::{Channel, PlayerState, note_index_to_frequency, note_to_frequency};
use crate::card::Card;
use crate::header::parse_header;
use crate::layout::{self, Layout};
use crate::pattern::{Cell, Pattern};
use crate::state::{Kept, SAMPLE_RATE, STATE_BYTES, State, lay_rest, voice_mark};
use crate::transposed;
use crate::tune::{CHANNELS, RECORD_BYTES, ROWS, Record, Tune, WORKED};

/// Put into every `sample_pos` before a row is entered. `enter_row` never reads that field and writes it exactly where
/// it starts a note (a whole number, so never this NaN); so the channels where it is gone afterwards are the struck ones.
const UNTOUCHED: u64 = 0x7FF8_5354_5249_4B45;

/// The original's player on one tune, with what the border's state has beside it.
pub struct Original {
    player: PlayerState,
    card: Card,
    kept: Kept,
}

impl Original {
    /// The constructor is handed the worked example's header; every field that a row reads is set behind it.
    pub fn new(tune: &Tune) -> Original {
        let patterns = (0..tune.patterns()).map(|p| pattern(tune, p)).collect();
        let samples = (0..tune.sample_count()).map(|i| tune.sample(i)).collect();
        let header = parse_header(WORKED).expect("the worked example is good");
        let mut player = PlayerState::new(&header, samples, patterns, SAMPLE_RATE);
        player.order.clone_from(&tune.orders);
        player.channels = vec![Channel::default(); CHANNELS];
        Original { player, card: Card::default(), kept: [[0; 6]; CHANNELS] }
    }

    /// Up to `limit` rows from a state on by the player alone; how many there were. For timing.
    pub fn rows_alone(&mut self, from: &[u8], limit: usize) -> usize {
        self.set(from);
        for rows in 0..limit {
            if !self.player.ended {
                self.player.enter_row();
            }
            if self.player.ended {
                return rows;
            }
            self.leave_row();
        }
        limit
    }

    /// 01's Section: the same with a record of each row in `output`. `bytes` gives the state behind them.
    pub fn rows_recorded(&mut self, from: &[u8], limit: usize, output: &mut [u8]) -> usize {
        self.set(from);
        for (rows, part) in output.chunks_exact_mut(RECORD_BYTES).take(limit).enumerate() {
            let Some(record) = self.enter_row() else { return rows };
            part.copy_from_slice(&record);
            self.leave_row_timed();
        }
        limit
    }

    /// The record of the next row, unless the tune has ended. The channels that are not struck have their sample position
    /// again. The tempo is the row's as a whole: how many T cells changed it does not matter to the card.
    fn enter_row(&mut self) -> Option<Record> {
        if self.player.ended {
            return None;
        }
        let before: [f64; CHANNELS] = std::array::from_fn(|i| self.player.channels[i].sample_pos);
        for channel in &mut self.player.channels {
            channel.sample_pos = f64::from_bits(UNTOUCHED);
        }
        let tempo = self.player.bpm;
        self.player.enter_row();
        self.card.change_tempo(tempo, self.player.bpm);
        let mut strikes = 0;
        for (i, channel) in self.player.channels.iter_mut().enumerate() {
            if channel.sample_pos.to_bits() == UNTOUCHED {
                channel.sample_pos = before[i];
            } else {
                strikes |= 1 << i;
            }
        }
        (!self.player.ended).then(|| self.record(strikes))
    }

    fn leave_row(&mut self) {
        if let Some(volume) = self.player.pending_global_vol.take() {
            self.player.global_volume = volume;
        }
        self.player.next_row();
    }

    /// The same, and the card goes on.
    fn leave_row_timed(&mut self) {
        self.card.leave(self.player.speed, self.player.bpm);
        self.leave_row();
    }

    /// The record of the row entered: its head of 24 bytes, then 32 channels of 16.
    fn record(&self, strikes: u32) -> Record {
        let (player, mut out) = (&self.player, [0; RECORD_BYTES]);
        let (head, channels) = out.split_at_mut(24);
        let pattern = player.order[usize::from(player.order_index)];
        let held = player.replaying_for_pattern_delay.into();
        let length = self.card.length(player.speed, player.bpm);
        head[..4].copy_from_slice(&[player.order_index, pattern, player.row, held]);
        head[4..8].copy_from_slice(&[player.speed, player.bpm, player.global_volume, 0]);
        head[8..16].copy_from_slice(&self.card.start.to_le_bytes());
        head[16..20].copy_from_slice(&strikes.to_le_bytes());
        head[20..24].copy_from_slice(&length.to_le_bytes());
        for (ch, part) in player.channels.iter().zip(channels.chunks_exact_mut(16)) {
            let delay = ch.pending_delay.map_or(0, |delay| delay.fire_tick);
            part[..4].copy_from_slice(&ch.frequency.to_le_bytes());
            part[4..8].copy_from_slice(&ch.target_frequency.to_le_bytes());
            part[8..12].copy_from_slice(&[ch.instrument, ch.volume, ch.pan, ch.active.into()]);
            part[12..].copy_from_slice(&[ch.last_note, delay, ch.voice_global_vol, voice_mark(ch)]);
        }
        out
    }

    fn set(&mut self, state: &[u8]) {
        layout::read(state, |layout| self.lay(layout));
        (self.player.pending_jump, self.player.pending_global_vol) = (None, None);
    }

    /// The bytes of the state in which the player stands.
    pub fn bytes(&mut self) -> Vec<u8> {
        layout::written(STATE_BYTES, |layout| self.lay(layout))
    }

    /// As `State` has it.
    fn lay(&mut self, layout: &mut Layout) {
        let player = &mut self.player;
        layout.bytes([&mut player.order_index, &mut player.row]);
        layout.options([&mut player.loop_pattern_order, &mut player.loop_count]);
        layout.bytes([&mut player.loop_start_row, &mut player.pattern_delay_remaining]);
        layout.flags([&mut player.replaying_for_pattern_delay, &mut player.ended]);
        layout.bytes([&mut player.speed, &mut player.bpm, &mut player.global_volume]);
        layout.flags([&mut player.amiga_limits, &mut player.fast_slides]);
        layout.next([0; 1]);
        lay_rest(layout, &mut self.card, &mut player.channels, &mut self.kept);
    }
}

/// 01's fresh state: the original's default channels with the tune's opening values.
pub fn open(tune: &Tune) -> State {
    let opening = &tune.opening;
    let channel = |i: usize| Channel {
        pan: opening.channels[i].pan,
        muted: opening.channels[i].muted,
        right_bank: opening.channels[i].right_bank,
        adlib: opening.channels[i].adlib,
        transposition: opening.channels[i].transposition,
        ..Channel::default()
    };
    State {
        speed: opening.speed,
        bpm: opening.tempo,
        global_volume: opening.global_volume,
        card: Card { rate: opening.rate, remainder: 0, start: 0 },
        amiga_limits: opening.amiga_limits,
        fast_slides: opening.fast_slides,
        channels: std::array::from_fn(channel),
        ..State::default()
    }
}

/// Hands each row of a section from a state on to `each`: the state before, the state entered and the record. Gives the
/// state behind the section.
pub fn walk(tune: &Tune, from: State, limit: usize, mut each: impl FnMut(&State, &State, &Record)) -> State {
    let (mut original, mut state) = (Original::new(tune), from);
    original.set(&state.encode());
    for _ in 0..limit {
        let Some(record) = original.enter_row() else { break };
        each(&state, &State::decode(&original.bytes()), &record);
        original.leave_row_timed();
        state = State::decode(&original.bytes());
    }
    State::decode(&original.bytes())
}

/// What `enter_row` has for a note's frequency: at transposition 0 the original's own function answers, elsewhere its
/// table at the number that 02 gives.
pub fn frequency(note: u8, transposition: i8, c5_speed: u32) -> f32 {
    match transposition {
        0 => note_to_frequency(note, c5_speed),
        _ => note_index_to_frequency(transposed::number(note, transposition), c5_speed),
    }
}

fn pattern(tune: &Tune, index: usize) -> Pattern {
    let row = |row| tune.row(index, row).map(cell).collect();
    Pattern { rows: (0..ROWS).map(row).collect() }
}

pub fn cell(b: &[u8]) -> Cell {
    Cell { note: b[0], instrument: b[1], volume: b[2], command: b[3], info: b[4] }
}
