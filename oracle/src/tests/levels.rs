//! Levels about their limits: what is refused, and that no row takes one past them.

use crate::calls::Call;
use crate::generate::{self, Purpose, levels, pitch};
use crate::list::Case;
use crate::player::bridge::{Original, open, walk};
use crate::random::Random;
use crate::rules;
use crate::state::{
    ADLIB, CHANNEL_BYTES, GLOBAL_VOLUME, HEAD_BYTES, PAN, STORED_VOLUME, State, VOICE_GLOBAL_VOLUME, VOLUME,
};
use crate::tune::{CHANNELS, ROWS, Tune};

/// What a section of a row is refused by, with these bytes in a channel of Open's state; a refusal leaves all as it was.
fn refused_with(tune: &Tune, channel: usize, bytes: &[(usize, u8)]) -> u8 {
    let mut call = Call::section(tune, open(tune).encode(), 1, 0);
    for &(at, byte) in bytes {
        call.slots[3][HEAD_BYTES + CHANNEL_BYTES * channel + at] = byte;
    }
    let case = Case::of(call);
    assert!(case.answer.refusal() == 0 || case.answer.slots == case.call.slots);
    case.answer.refusal()
}

/// 02: 'Section shall refuse channel volumes, not the global ones, above 63, or 64 on AdLib channels, and pans above 15.'
/// Each byte in one channel.
#[test]
fn a_level_is_taken_up_to_its_limit() {
    let tune = pitch::tune(&[pitch::note(0x40, 8363)]);
    let limits = [(0, VOLUME, 63), (1, VOLUME, 64), (0, PAN, 15), (1, PAN, 15)];
    let others = [STORED_VOLUME, VOICE_GLOBAL_VOLUME];
    for (byte, channel) in (0..=255).zip((0..CHANNELS).cycle()) {
        for (mark, place, most) in limits {
            let refused = refused_with(&tune, channel, &[(ADLIB, mark), (place, byte)]);
            assert_eq!(
                refused,
                if byte > most { 17 } else { 0 },
                "{byte} at {place}, mark {mark}"
            );
        }
        for place in others {
            assert_eq!(refused_with(&tune, channel, &[(place, byte)]), 0, "{byte} at {place}");
        }
        let mut call = Call::section(&tune, open(&tune).encode(), 1, 0);
        call.slots[3][GLOBAL_VOLUME] = byte;
        assert_eq!(Case::of(call).answer.refusal(), 0, "global volume {byte}");
        // Any mark but 0 is AdLib's.
        let of_mark = [64, 65].map(|volume| refused_with(&tune, channel, &[(ADLIB, byte), (VOLUME, volume)]));
        assert_eq!(of_mark, if byte == 0 { [17, 17] } else { [0, 17] }, "mark {byte}");
    }
}

/// 02: '17, such a level, stands directly after 11', so 12 follows. Each of 9, 11, 17 and 12 is broken or not.
#[test]
fn a_level_is_refused_behind_11_and_before_12() {
    let tune = pitch::tune(&[pitch::note(0x40, 8363)]);
    for broken in 0..16 {
        let [by_12, by_17, by_11, by_9] = [0, 1, 2, 3].map(|bit| broken >> bit & 1 == 1);
        let mut call = Call::section(&tune, open(&tune).encode(), 1, 0);
        if by_12 {
            call.slots[4].pop();
        }
        call.slots[3][HEAD_BYTES + VOLUME] = if by_17 { 64 } else { 63 };
        call.slots[3][10] = if by_11 { 0 } else { 6 };
        if by_9 {
            call.slots[0].clear();
        }
        let expected = match (by_9, by_11, by_17, by_12) {
            (true, ..) => 9,
            (_, true, ..) => 11,
            (_, _, true, _) => 17,
            (.., true) => 12,
            _ => 0,
        };
        assert_eq!(Case::of(call).answer.refusal(), expected, "{broken:#b}");
    }
}

/// How many levels of channels were at their limits, having been elsewhere: volume 63 on PCM, 64 on AdLib and pan 15.
#[derive(Default)]
struct Reached([u64; 3]);

impl Reached {
    /// Walks rows from a state within 02's limits: every level that they leave, in a record too, must be within them.
    fn walk(&mut self, tune: &Tune, from: State, rows: usize) {
        let last = walk(tune, from, rows, |before, entered, record| {
            let channels = before.channels.iter().zip(&entered.channels);
            for ((was, is), part) in channels.zip(record[24..].chunks_exact(16)) {
                let most = if is.adlib { 64 } else { 63 };
                assert!(is.volume <= most && is.pan <= 15, "from {was:?} to {is:?}");
                assert_eq!((part[9], part[10], was.adlib), (is.volume, is.pan, is.adlib));
                let volume = is.volume == most && was.volume != most;
                self.0[usize::from(is.adlib)] += u64::from(volume);
                self.0[2] += u64::from(is.pan == 15 && was.pan != 15);
            }
        });
        let broken = rules::broken(&Call::section(tune, last.encode(), 0, 0));
        assert!(broken.iter().all(|&(rule, _)| rule != 17), "{broken:?}");
    }

    fn are_many(&self) {
        assert!(self.0.iter().all(|&times| times > 1_000), "{:?}", self.0);
    }
}

/// From a state that is taken, `enter_row` leaves no level above its limit: nothing is ever cut.
#[test]
fn rows_leave_levels_within_their_limits() {
    let mut reached = Reached::default();
    for seed in 0..400 {
        let random = &mut Random::new(seed);
        let tunes = [generate::tune(random, Purpose::Visits, seed), levels::any_tune(random)];
        for tune in tunes.iter().cycle().take(50) {
            let mut bytes = generate::odd_bytes(random, tune);
            if random.chance(50) {
                levels::put_at_limits(&mut bytes);
            }
            reached.walk(tune, State::decode(&bytes), 1);
        }
    }
    reached.are_many();
}

/// 02: 'For every list of Sections from Open all channels keep those limits'.
#[test]
fn walks_from_open_keep_levels_within_their_limits() {
    let mut reached = Reached::default();
    for seed in 0..200 {
        let random = &mut Random::new(seed);
        let tunes = [generate::tune(random, Purpose::Walks, seed), levels::any_tune(random)];
        for tune in &tunes {
            reached.walk(tune, open(tune), 150);
        }
    }
    reached.are_many();
}

/// A tune whose row n of 256 has this command with info n in each channel.
fn every_info(command: u8) -> Tune {
    let row = |info| [255, 0, 255, command, info].repeat(CHANNELS);
    Tune {
        orders: vec![0, 1, 2, 3],
        cells: (0..=255).flat_map(row).collect(),
        ..pitch::tune(&[pitch::note(0x40, 8363)])
    }
}

/// States with every volume and pan within 02's limits, with fast slides and without.
fn within_limits(tune: &Tune) -> Vec<Vec<u8>> {
    let volumes = [(false, 63), (true, 64)].map(|(adlib, most)| (0..=most).map(move |volume| (adlib, volume)));
    let volumes: Vec<(bool, u8)> = volumes.into_iter().flatten().collect();
    let state = |(volumes, fast_slides): (&[(bool, u8)], bool)| {
        let mut state = open(tune);
        state.fast_slides = fast_slides;
        for (k, (channel, &(adlib, volume))) in state.channels.iter_mut().zip(volumes).enumerate() {
            (channel.adlib, channel.volume, channel.pan) = (adlib, volume, k as u8 % 16);
        }
        state.encode()
    };
    let parts = volumes.chunks(CHANNELS);
    parts
        .flat_map(|part| [(part, false), (part, true)])
        .map(state)
        .collect()
}

/// Every command with every info, on every volume and pan within the limits.
#[test]
fn no_command_takes_a_level_past_its_limit() {
    for command in 0..=30 {
        let tune = every_info(command);
        let (mut original, states) = (Original::new(&tune), within_limits(&tune));
        for (info, state) in (0..=255).flat_map(|info: u8| states.iter().map(move |state| (info, state))) {
            let mut from = state.clone();
            (from[0], from[1]) = (info / ROWS as u8, info % ROWS as u8);
            assert_eq!(original.rows_alone(&from, 1), 1);
            for part in original.bytes()[HEAD_BYTES..].chunks_exact(CHANNEL_BYTES) {
                let most = if part[ADLIB] == 0 { 63 } else { 64 };
                assert!(part[VOLUME] <= most && part[PAN] <= 15, "{command} with {info}");
            }
        }
    }
}
