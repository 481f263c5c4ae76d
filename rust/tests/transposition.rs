//! Transposed channels: pitches worked out by hand, what is refused, and the command's option.

mod common;

use common::{Folder, Put, WORKED, file, pitched, run, text};
use lomqashe::{State, Tune};

/// What a period gives at c5 speed 8363.
fn hertz(period: u32) -> f32 {
    (14_317_456.0 / f64::from(period)) as f32
}

/// A note byte, a transposition, and the period of the note that sounds: octave × 12 + semitone and the transposition, cut
/// to 0 (period 27,392) through 107 (56).
const NOTES: [(u8, i8, u32); 13] = [
    (0x00, 0, 27_392),
    (0x00, -24, 27_392),
    (0x00, 24, 6_848),
    (0x0B, -12, 27_392),
    (0x40, 0, 1_712),
    (0x40, 12, 856),
    (0x40, -12, 3_424),
    // 60: semitone 12 is the next octave's first.
    (0x4C, 1, 808),
    (0x8B, 1, 56),
    // 111, brought down to 106 and 107.
    (0x8F, -5, 60),
    (0x8F, -4, 56),
    (0xFD, 24, 56),
    (0xFD, -24, 56),
];

fn notes() -> Tune {
    let puts: Vec<Put> = (0..).zip(NOTES).map(|(k, (note, ..))| pitched(0, k, note)).collect();
    Tune::read(&file(&[0], &[&puts]), 60_000).unwrap()
}

#[test]
fn a_pitch_follows_its_channels_transposition() {
    let mut tune = notes();
    for (channel, (_, by, _)) in tune.opening.channels.iter_mut().zip(NOTES) {
        assert_eq!(channel.transposition, 0);
        channel.transposition = by;
    }
    let first = tune.rows(1).unwrap().next().unwrap();
    for (channel, (note, by, period)) in first.channels().iter().zip(NOTES) {
        let expected = hertz(period);
        assert_eq!([channel.frequency, channel.target], [expected; 2], "{note:#x} by {by}");
        assert_eq!(channel.last_note, note);
    }
}

#[test]
fn other_channels_stay_as_they_are() {
    let plain = notes();
    let mut tune = plain.clone();
    tune.opening.channels[4].transposition = 7;
    for (ours, theirs) in tune.rows(50).unwrap().zip(plain.rows(50).unwrap()) {
        let [ours, theirs] = [ours, theirs].map(|record| record.as_bytes().to_vec());
        assert_ne!(ours[24 + 4 * 16..][..8], theirs[24 + 4 * 16..][..8]);
        assert_eq!(ours[..24 + 4 * 16], theirs[..24 + 4 * 16]);
        assert_eq!(ours[24 + 5 * 16..], theirs[24 + 5 * 16..]);
    }
}

#[test]
fn a_transposition_out_of_the_span_is_refused() {
    let mut tune = notes();
    let opened = *tune.open().unwrap().as_bytes();
    for (by, taken) in [
        (-128, false),
        (-25, false),
        (-24, true),
        (24, true),
        (25, false),
        (127, false),
    ] {
        for channel in [0, 13, 31] {
            tune.opening = notes().opening;
            tune.opening.channels[channel].transposition = by;
            let refusal = |rule| if taken { Ok(()) } else { Err(rule) };
            let [open, closed] = [tune.open(), tune.open_closed()].map(|state| state.map_err(|why| why.number()));
            assert_eq!([open, closed].map(|state| state.map(|_| ())), [refusal(10); 2]);
            let mut bytes = opened;
            bytes[64 + 80 * channel + 45] = by as u8;
            let mut state = State::from_bytes(&bytes);
            assert_eq!(state.transpositions()[channel], by);
            let section = tune.section(&mut state, 0, &mut []);
            assert_eq!(section.map(|_| ()).map_err(|why| why.number()), refusal(11));
            assert_eq!(state.as_bytes(), &bytes);
        }
    }
}

/// The frequencies of channels 0 and 1 in each row that the command prints.
fn frequencies(words: &[&str], tune: &str) -> Vec<[f32; 2]> {
    let output = run(&[words, &["--channels", tune]].concat(), b"");
    assert_eq!(output.status.code(), Some(0), "{words:?}: {}", text(&output.stderr));
    let lines: Vec<&str> = text(&output.stdout).lines().collect();
    let frequency = |line: &str| line.split(',').nth(12).unwrap().parse().unwrap();
    let rows = lines[1..lines.len() - 1].chunks(32);
    rows.map(|row| [frequency(row[0]), frequency(row[1])]).collect()
}

#[test]
fn the_command_transposes_all_channels_or_one() {
    let folder = Folder::new("transpose");
    let puts = [pitched(0, 0, 0x40), pitched(0, 1, 0x40)];
    let tune = folder.write("two.s3m", &file(&[0], &[&puts]));
    let ways: [(&[&str], [u32; 2]); 9] = [
        (&[], [1_712, 1_712]),
        (&["--transpose", "12"], [856, 856]),
        (&["--transpose", "-12"], [3_424, 3_424]),
        (&["--transpose=+12"], [856, 856]),
        (&["--transpose", "1:12"], [1_712, 856]),
        (&["--transpose=0:-12", "--transpose", "1:12"], [3_424, 856]),
        // The last counts.
        (&["--transpose", "12", "--transpose", "0:0"], [1_712, 856]),
        (&["--transpose", "0:12", "--transpose", "-12"], [3_424, 3_424]),
        (
            &["--transpose", "99", "--transpose", "31:-99", "--transpose", "24"],
            [428, 428],
        ),
    ];
    for (words, periods) in ways {
        assert_eq!(frequencies(words, &tune)[0], periods.map(hertz), "{words:?}");
    }
}

#[test]
fn a_saved_state_stays_transposed() {
    let folder = Folder::new("transposed-state");
    let puts = [pitched(0, 0, 0x40), pitched(1, 1, 0x50)];
    let tune = folder.write("two.s3m", &file(&[0], &[&puts]));
    let state = folder.path("state");
    let first = frequencies(&["--transpose", "-12", "--rows", "1", "--save", &state], &tune);
    assert_eq!(first, [[hertz(3_424), 0.0]]);
    let next = frequencies(&["--rows", "1", "--from", &state], &tune);
    assert_eq!(next, [[hertz(3_424), hertz(1_712)]]);
}

#[test]
fn the_command_tells_rule_10_of_a_whole_number_out_of_the_span() {
    for by in [
        "25",
        "-25",
        "128",
        "-129",
        "0:25",
        "31:-1000",
        "+99999999999999999999",
        "7:-99999999999999999999",
    ] {
        for words in [
            &["--transpose", by, WORKED][..],
            &["--closed", "--transpose", by, WORKED],
        ] {
            let output = run(words, b"");
            assert_eq!(output.status.code(), Some(1), "{by}");
            assert!(text(&output.stdout).ends_with("\nrefused,10\n"));
            assert!(text(&output.stderr).ends_with("or a transposition outside -24 to 24 (rule 10)\n"));
        }
    }
    // The file's own rules come before it.
    let output = run(&["--transpose", "25"], b"no tune");
    assert!(text(&output.stdout).ends_with("\nrefused,1\n"));
}

#[test]
fn the_command_takes_no_other_transpositions() {
    for by in [
        "", "x", "1.5", "--", "1:", ":1", "32:1", "-1:1", "x:1", "1:x", "1:2:3", "1 2", "0x10", "+", "-",
    ] {
        let output = run(&["--transpose", by, WORKED], b"");
        assert_eq!(output.status.code(), Some(2), "{by}");
        assert!(output.stdout.is_empty() && !output.stderr.is_empty());
    }
    let output = run(&["--transpose", "33:1", WORKED], b"");
    assert_eq!(
        text(&output.stderr),
        "lomqashe: --transpose takes whole semitones, or a channel from 0 to 31 and semitones as 3:-5, not 33:1; \
         see lomqashe --help\n"
    );
    for words in [&["--transpose"][..], &["--from", WORKED, "--transpose", "1", WORKED]] {
        assert_eq!(run(words, b"").status.code(), Some(2));
    }
}
