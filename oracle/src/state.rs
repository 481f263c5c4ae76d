//! The state between two rows, and its 2,624 bytes as rust/include/lomqashe.h lays them out. Its channels are the
//! original's own; a state that is read from bytes and written again has them in the border's one way.

use crate::card::Card;
use crate::layout::{self, Layout};
use crate::opl2::{AdLibInstrument, EgStage, OplVoice};
use crate::player::{Channel, PendingTrigger, Waveform};
use crate::tune::CHANNELS;

pub const HEAD_BYTES: usize = 64;
pub const CHANNEL_BYTES: usize = 80;
pub const STATE_BYTES: usize = HEAD_BYTES + CHANNELS * CHANNEL_BYTES;
/// Where the head has the global volume.
pub const GLOBAL_VOLUME: usize = 12;
/// Where a channel has its levels, its AdLib mark and its transposition.
pub const VOLUME: usize = 17;
pub const PAN: usize = 18;
pub const STORED_VOLUME: usize = 36;
pub const ADLIB: usize = 42;
pub const VOICE_GLOBAL_VOLUME: usize = 44;
pub const TRANSPOSITION: usize = 45;
/// The S infos stand in the head, and not in this slot of a channel's memory.
pub const S_SLOT: usize = 19;
/// The mixer's rate, which no row reads.
pub const SAMPLE_RATE: u32 = 44_100;
const WAVEFORMS: [Waveform; 4] = [Waveform::Sine, Waveform::RampDown, Waveform::Square, Waveform::Random];

/// A voice's mark.
pub const NO_VOICE: u8 = 0;
pub const KEYED: u8 = 1;
pub const RELEASED: u8 = 2;

/// The bytes of a channel's memory that nobody reads, slots 19 and 27 to 31: they come back as they were.
pub type Kept = [[u8; 6]; CHANNELS];

#[derive(Clone, Debug, Default)]
pub struct State {
    pub order_index: u8,
    pub row: u8,
    pub loop_pattern_order: Option<u8>,
    pub loop_count: Option<u8>,
    pub loop_start_row: u8,
    pub pattern_delay_remaining: u8,
    pub replaying_for_pattern_delay: bool,
    pub ended: bool,
    pub speed: u8,
    pub bpm: u8,
    pub global_volume: u8,
    pub amiga_limits: bool,
    pub fast_slides: bool,
    pub card: Card,
    pub channels: [Channel; CHANNELS],
    pub kept: Kept,
}

impl State {
    pub fn decode(bytes: &[u8]) -> State {
        let mut state = State::default();
        layout::read(bytes, |layout| state.lay(layout));
        state
    }

    pub fn encode(&self) -> Vec<u8> {
        layout::written(STATE_BYTES, |layout| self.clone().lay(layout))
    }

    fn lay(&mut self, layout: &mut Layout) {
        layout.bytes([&mut self.order_index, &mut self.row]);
        layout.options([&mut self.loop_pattern_order, &mut self.loop_count]);
        layout.bytes([&mut self.loop_start_row, &mut self.pattern_delay_remaining]);
        layout.flags([&mut self.replaying_for_pattern_delay, &mut self.ended]);
        layout.bytes([&mut self.speed, &mut self.bpm, &mut self.global_volume]);
        layout.flags([&mut self.amiga_limits, &mut self.fast_slides]);
        layout.next([0; 1]);
        lay_rest(layout, &mut self.card, &mut self.channels, &mut self.kept);
    }
}

/// What follows the player's own fields: the card, the S infos and the channels.
pub fn lay_rest(layout: &mut Layout, card: &mut Card, channels: &mut [Channel], kept: &mut Kept) {
    card.lay(layout);
    layout.bytes(channels.iter_mut().map(|ch| &mut ch.effect_memory[S_SLOT]));
    for (ch, kept) in channels.iter_mut().zip(kept) {
        lay_channel(layout, ch, kept);
    }
}

fn lay_channel(layout: &mut Layout, ch: &mut Channel, kept: &mut [u8; 6]) {
    layout.float(&mut ch.frequency);
    layout.float(&mut ch.target_frequency);
    let place = f64::from_le_bytes(layout.next(ch.sample_pos.to_le_bytes()));
    // Any NaN is the one that is written.
    let any = f64::from_bits(0x7FF8 << 48);
    ch.sample_pos = if place.is_nan() { any } else { place };
    layout.bytes([&mut ch.instrument, &mut ch.volume, &mut ch.pan]);
    layout.flags([&mut ch.active]);
    layout.bytes([&mut ch.command, &mut ch.info, &mut ch.vibrato_pos]);
    layout.bytes([&mut ch.tremolo_pos, &mut ch.last_note]);
    lay_delay(layout, &mut ch.pending_delay);
    layout.flags([&mut ch.glissando]);
    for waveform in [&mut ch.vibrato_waveform, &mut ch.tremolo_waveform] {
        let [byte] = layout.next([*waveform as u8]);
        *waveform = WAVEFORMS[usize::from(byte % 4)];
    }
    layout.bytes([&mut ch.retrig_counter, &mut ch.tremor_on_counter]);
    layout.bytes([&mut ch.tremor_off_counter, &mut ch.stored_volume]);
    layout.flags([&mut ch.keep_vibrato_pos_on_new_note]);
    layout.flags([&mut ch.keep_tremolo_pos_on_new_note]);
    layout.flags([&mut ch.muted, &mut ch.frozen, &mut ch.right_bank, &mut ch.adlib]);
    let [mark] = layout.next([voice_mark(ch)]);
    if mark != voice_mark(ch) {
        ch.opl_voice = voice(mark);
    }
    layout.bytes([&mut ch.voice_global_vol]);
    layout.signed(&mut ch.transposition);
    layout.next([0; 2]);
    let [of_s, behind @ ..] = kept;
    layout.bytes(&mut ch.effect_memory[..S_SLOT]);
    layout.bytes([of_s]);
    layout.bytes(&mut ch.effect_memory[S_SLOT + 1..]);
    layout.bytes(behind);
}

fn lay_delay(layout: &mut Layout, field: &mut Option<PendingTrigger>) {
    let (mut there, mut delay) = (field.is_some(), field.unwrap_or_default());
    layout.flags([&mut there]);
    layout.bytes([&mut delay.fire_tick, &mut delay.note]);
    layout.bytes([&mut delay.instrument, &mut delay.volume]);
    *field = there.then_some(delay);
}

/// A voice with this mark. Which registers it has is never read.
fn voice(mark: u8) -> Option<OplVoice> {
    let mut voice = OplVoice::new(AdLibInstrument::from_registers(&[0; 11]), 0, SAMPLE_RATE);
    if mark == RELEASED {
        voice.key_off();
    }
    (mark != NO_VOICE).then_some(voice)
}

/// Rows never render: a voice is in its attack from its key on, and in its release from its key off.
pub fn voice_mark(ch: &Channel) -> u8 {
    match ch.opl_voice.as_ref().map(OplVoice::carrier_stage) {
        None => NO_VOICE,
        Some(EgStage::Release | EgStage::Off) => RELEASED,
        Some(_) => KEYED,
    }
}
