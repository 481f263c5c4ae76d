//! Levels that cannot be real: what a section refuses, what it leaves alone, and what the command says.

mod common;

use common::{Folder, WORKED, run, text};
use lomqashe::{CHANNELS, LevelAbove, RECORD_BYTES, State, Tune};
use std::fs;

/// Places in a state, and in one channel's 80 bytes of it.
const ROW: usize = 1;
const GLOBAL_VOLUME: usize = 12;
const VOLUME: usize = 17;
const PAN: usize = 18;
const STORED_VOLUME: usize = 36;
const ADLIB: usize = 42;
const VOICE_VOLUME: usize = 44;

type Bytes = [u8; State::BYTES];

fn tune() -> Tune {
    Tune::read(&fs::read(WORKED).unwrap(), 60_000).unwrap()
}

/// The worked example's first state with these bytes of a channel.
fn with(tune: &Tune, channel: usize, puts: &[(usize, u8)]) -> Bytes {
    let mut bytes = *tune.open().unwrap().as_bytes();
    for &(at, byte) in puts {
        bytes[64 + 80 * channel + at] = byte;
    }
    bytes
}

/// What a section of so many rows into an output of one says, 0 where it is not refused. Refused, it leaves state and output.
fn refusal(tune: &Tune, bytes: &Bytes, rows: u32) -> u8 {
    let (mut state, mut output) = (State::from_bytes(bytes), [0xA5; RECORD_BYTES]);
    let Err(why) = tune.section(&mut state, rows, &mut output) else {
        return 0;
    };
    assert_eq!((state.as_bytes(), output), (bytes, [0xA5; RECORD_BYTES]));
    why.number()
}

#[test]
fn a_volume_above_63_is_refused_or_64_on_adlib() {
    let tune = tune();
    for (adlib, limit) in [(0, 63), (1, 64), (0x80, 64)] {
        for volume in 0..=255 {
            let channel = usize::from(volume) % CHANNELS;
            let bytes = with(&tune, channel, &[(VOLUME, volume), (ADLIB, adlib)]);
            let above = (volume > limit).then_some(LevelAbove::Volume {
                channel: channel as u8,
                volume,
                limit,
            });
            assert_eq!(State::from_bytes(&bytes).first_level_above(), above);
            assert_eq!(refusal(&tune, &bytes, 1), if above.is_some() { 17 } else { 0 });
        }
    }
}

#[test]
fn a_pan_above_15_is_refused() {
    let tune = tune();
    for pan in 0..=255 {
        for channel in [0, 9, 31] {
            let bytes = with(&tune, channel, &[(PAN, pan)]);
            let above = (pan > 15).then_some(LevelAbove::Pan {
                channel: channel as u8,
                pan,
            });
            assert_eq!(State::from_bytes(&bytes).first_level_above(), above);
            assert_eq!(refusal(&tune, &bytes, 1), if above.is_some() { 17 } else { 0 });
        }
    }
}

#[test]
fn it_is_asked_behind_11_and_before_12() {
    let tune = tune();
    for broken in 0..8 {
        let [eleven, seventeen, twelve] = [1, 2, 4].map(|bit| broken & bit != 0);
        let mut bytes = with(&tune, 5, &[(VOLUME, if seventeen { 200 } else { 63 })]);
        if eleven {
            bytes[ROW] = 64;
        }
        let first = [(eleven, 11), (seventeen, 17), (twelve, 12)];
        let expected = first.iter().find(|rule| rule.0).map_or(0, |rule| rule.1);
        assert_eq!(refusal(&tune, &bytes, 1 + u32::from(twelve)), expected);
        assert_eq!(
            refusal(
                &Tune {
                    orders: vec![],
                    ..tune.clone()
                },
                &bytes,
                1
            ),
            9
        );
    }
}

#[test]
fn no_other_volume_is_looked_at() {
    let tune = tune();
    let mut bytes = with(&tune, 31, &[(STORED_VOLUME, 200), (VOICE_VOLUME, 200)]);
    bytes[GLOBAL_VOLUME] = 200;
    assert_eq!(refusal(&tune, &bytes, 1), 0);
}

#[test]
fn a_state_that_cannot_be_real_is_told_by_its_channel() {
    let folder = Folder::new("levels");
    let path = folder.path("state");
    run(&["--rows", "1", "--save", &path, WORKED], b"");
    let mut saved = fs::read(&path).unwrap();
    let state = saved.len() - State::BYTES;
    saved[state + 64 + 80 * 4 + VOLUME] = 200;
    let broken = folder.write("broken", &saved);
    for words in [
        vec!["--from", &broken, WORKED],
        vec!["--once", "--from", &broken, WORKED],
    ] {
        let output = run(&words, b"");
        assert_eq!(output.status.code(), Some(1));
        assert!(text(&output.stdout).ends_with("strikes\nrefused,17\n"));
        assert_eq!(
            text(&output.stderr),
            "lomqashe: refused: a channel of the state has a volume above 63, or 64 on an AdLib channel, or a pan above 15 \
             (rule 17): channel 4 has volume 200, and the most is 63\n"
        );
    }
}
