//! What neither the comparison of the list nor that at scale would show.

mod levels;

use crate::calls::{Call, Function, UNTOUCHED};
use crate::closed::{B, S, is_closed};
use crate::columns::{restore, store};
use crate::generate::closed::Put;
use crate::generate::{closed, columns, pitch, records, transposed};
use crate::head::{CLEAR, LOAD, STRIKE, step};
use crate::list::{self, Case};
use crate::player::PERIOD_TABLE;
use crate::player::bridge::{Original, frequency, open, walk};
use crate::random::Random;
use crate::state::{CHANNEL_BYTES, HEAD_BYTES, TRANSPOSITION};
use crate::strikes::struck;
use crate::transposed::{SPAN, number};
use crate::tune::{
    CELL, CHANNELS, EMPTY_CELL, PATTERN_BYTES, RECORD_BYTES, ROW_BYTES, TRANSPOSITIONS, Tune, le32, le64,
};

#[test]
fn a_list_is_read_whole_or_misread() {
    let tune = pitch::tune(&[pitch::note(0x40, 8363)]);
    let opened = Case::of(Call::open(&tune));
    let section = Call::section(&tune, opened.answer.slots[4].clone(), 3, 5);
    let cases = [opened, Case::of(section)];
    let list = list::encode(&cases);
    assert_eq!(list::decode(&list).as_deref(), Ok(&cases[..]));
    assert!((0..list.len()).all(|length| list::decode(&list[..length]).is_err()));
    assert!(list::decode(&[&list[..], &[0]].concat()).is_err());
}

/// 02's words of the original's table: octaves 0 to 6 are the octave 0 entry shifted right by the octave. Of octaves 7 and
/// 8 four entries are not; number 88 is 170.
#[test]
fn seven_octaves_are_shifts() {
    let shifted = |n: usize| PERIOD_TABLE[n % 12] >> (n / 12);
    let others: Vec<_> = (0..PERIOD_TABLE.len())
        .filter(|&n| PERIOD_TABLE[n] != shifted(n))
        .collect();
    assert_eq!(others, [88, 91, 92, 100]);
    assert_eq!((PERIOD_TABLE[88], shifted(88)), (170, 169));
}

/// Worked out by hand from 02: at speed 6 and rate 60,000 a row has 1,800,000 units of 1/(2 * tempo).
#[test]
fn the_card_is_02s() {
    let mut opening = pitch::opening();
    opening.tempo = 137;
    let mut cells = EMPTY_CELL.repeat(PATTERN_BYTES / CELL);
    // T64, T20 and T97 (100, 32 and 151) with SE1 on row 2, T89 (137) on row 3.
    let infos = [
        (2, 0, [20, 0x64]),
        (2, 1, [20, 0x20]),
        (2, 5, [20, 0x97]),
        (2, 9, [19, 0xE1]),
        (3, 0, [20, 0x89]),
    ];
    for (row, channel, cell) in infos {
        cells[row * ROW_BYTES + channel * CELL + 3..][..2].copy_from_slice(&cell);
    }
    let tune = Tune {
        orders: vec![0],
        cells,
        samples: Vec::new(),
        opening,
    };
    let mut seen = Vec::new();
    let last = walk(&tune, open(&tune), 5, |before, entered, record| {
        let remainders = [before.card.remainder, entered.card.remainder];
        seen.push((le64(record, 8), le32(record, 20), remainders));
    });
    let expected = [
        // 1,800,000 = 6,569 * 274 + 94.
        (0, 6_569, [0, 0]),
        // 1,800,094 = 6,569 * 274 + 188.
        (6_569, 6_569, [94, 94]),
        // 188 * 151 / 137 = 207.2; cut at each T it would be 137, 43 and 202. 1,800,207 = 5,960 * 302 + 287.
        (13_138, 5_960, [188, 207]),
        // Held: 1,800,287 = 5,961 * 302 + 65.
        (19_098, 5_961, [287, 287]),
        // 65 * 137 / 151 = 58.97; 1,800,058 = 6,569 * 274 + 152.
        (25_059, 6_569, [65, 58]),
    ];
    assert_eq!(seen, expected);
    assert_eq!((last.card.start, last.card.remainder), (31_628, 152));
}

/// Frequencies of the first channels, all struck, and the list that 02 gives them.
#[test]
fn strikes_are_02s() {
    let (nan, infinity) = (f32::NAN, f32::INFINITY);
    let [next, before] = [8363.0f32.next_up(), 8363.0f32.next_down()];
    let [payload, signalling] = [0x7FC0_0001, 0x7F80_0001].map(f32::from_bits);
    let least = f32::from_bits(1);
    let cases: [(&[f32], &[u8]); 13] = [
        (&[], &[]),
        (&[440.0], &[0]),
        (&[440.0, 220.0, 880.0, 110.0], &[3, 1, 0, 2]),
        (&[110.0, 220.0, 440.0], &[0, 1, 2]),
        (&[440.0, 220.0, 440.0, 220.0], &[1, 3, 0, 2]),
        (&[next, 8363.0, before], &[2, 1, 0]),
        (&[0.0, -0.0], &[0, 1]),
        (&[-0.0, 0.0], &[0, 1]),
        (&[1.0, 0.0, -1.0, -0.0, least, 0.0, -least], &[2, 6, 1, 3, 5, 4, 0]),
        (&[-1.0, -3.0, -2.0, -f32::MAX], &[3, 1, 2, 0]),
        (&[infinity, f32::MAX, -infinity, f32::MIN], &[2, 3, 1, 0]),
        (&[nan, infinity, -nan, -infinity, signalling, 0.0], &[3, 5, 1, 0, 2, 4]),
        (
            &[payload, -signalling, nan, -payload, signalling, -nan],
            &[0, 1, 2, 3, 4, 5],
        ),
    ];
    for (frequencies, expected) in cases {
        let mut record = [0x5A; RECORD_BYTES];
        let mask = (1 << frequencies.len()) - 1;
        records::put(&mut record, mask, frequencies.iter().map(|one| one.to_bits()));
        assert_eq!(struck(&record), expected, "{frequencies:?}");
    }
}

/// Three channels, with 0 behind them, and the bytes behind those as they were.
#[test]
fn strikes_are_put_into_32_bytes() {
    let mut record = [0; RECORD_BYTES];
    records::put(&mut record, 0xC000_0020, (1..=32).map(|k| (-k as f32).to_bits()));
    let answer = Case::of(Call::of_record(Function::Strikes, &record, 40)).answer;
    let expected = [&[31, 30, 5][..], &[0; 29], &[UNTOUCHED; 8]].concat();
    assert_eq!((answer.number, &answer.slots[1]), (3, &expected));
    assert_eq!(answer.slots[0], record);
}

/// Whether 02 has tables of so many patterns with these cells for a closed tune.
fn closes(orders: &[u8], patterns: usize, puts: &[Put]) -> bool {
    is_closed(&closed::table(orders, patterns, puts, pitch::opening()))
}

#[test]
fn no_closed_tune_recalls() {
    assert!(closes(&[0], 1, &[]));
    assert!(closes(&[0xFF], 0, &[]));
    assert!(!closes(&[0], 1, &[(0, 63, 31, [S, 0])]));
    assert!(closes(&[0], 1, &[(0, 63, 31, [S, 1])]));
    assert!(closes(&[0], 1, &[(0, 0, 0, [S - 1, 0]), (0, 0, 1, [S + 1, 0])]));
    // In a pattern that no order names.
    assert!(!closes(&[0], 2, &[(1, 5, 5, [S, 0])]));
}

#[test]
fn no_closed_tune_jumps_to_a_place_of_its_pattern_or_before() {
    let jumps_to = |orders: &[u8], pattern, to| closes(orders, 2, &[(pattern, 9, 9, [B, to])]);
    assert_eq!(
        [0, 1, 2, 3].map(|to| jumps_to(&[0, 1, 0], 1, to)),
        [false, false, true, true]
    );
    // Pattern 0 is named by places 0 and 3: only the later one is passed by 1, 2 and 3.
    assert_eq!(
        [0, 1, 3, 4].map(|to| jumps_to(&[0, 1, 1, 0], 0, to)),
        [false, false, false, true]
    );
    // A place behind the end is never reached.
    assert!(!jumps_to(&[1, 0xFF, 0], 0, 1));
    // No order names pattern 1: marks and missing patterns name none.
    assert!(jumps_to(&[0, 0xFE, 0xFF, 2], 1, 0));
    let last: Vec<u8> = [vec![0; 254], vec![1]].concat();
    assert_eq!([253, 254, 255].map(|to| jumps_to(&last, 1, to)), [false, false, true]);
}

#[test]
fn no_closed_tune_has_two_loops_in_a_pattern() {
    let loops = |infos: &[(usize, usize, u8)]| {
        let put = |&(row, channel, info)| (1, row, channel, [S, info]);
        closes(&[0], 2, &infos.iter().map(put).collect::<Vec<Put>>())
    };
    assert!(loops(&[(3, 0, 0xB2)]));
    assert!(!loops(&[(0, 0, 0xB1), (63, 31, 0xBF)]));
    assert!(loops(&[(3, 0, 0xB2), (9, 0, 0xB0)]));
    // The last SB of row 9 counts.
    assert!(loops(&[(3, 0, 0xB2), (9, 4, 0xB2), (9, 5, 0xB0)]));
    assert!(!loops(&[(3, 0, 0xB2), (9, 4, 0xB0), (9, 5, 0xB2), (9, 6, 0xE0)]));
    assert!(loops(&[(3, 0, 0xB2), (3, 1, 0xB2), (9, 0, 0xA2), (10, 0, 0xC2)]));
    assert!(closes(&[0, 1], 2, &[(0, 3, 0, [S, 0xB2]), (1, 3, 0, [S, 0xB2])]));
}

/// How many rows the original walks, and whether it came to an end.
fn walked(tune: &Tune, most: usize) -> (usize, bool) {
    let mut original = Original::new(tune);
    let rows = original.rows_alone(&open(tune).encode(), most);
    (rows, rows < most || original.bytes()[9] == 1)
}

/// 02: 'A closed tune ends within 16,384 rows an order, counting held visits'.
const MOST_AN_ORDER: usize = 16_384;

#[test]
fn closed_tunes_end() {
    let (mut walks, mut longest) = (0, 0);
    for seed in 0..4_000 {
        let tune = closed::tune(&mut Random::new(seed));
        if is_closed(&tune) {
            let (rows, ended) = walked(&tune, MOST_AN_ORDER * tune.orders.len());
            assert!(ended, "seed {seed}");
            (walks, longest) = (walks + 1, rows.max(longest));
        }
    }
    assert!(
        walks > 1_000 && longest > 10_000,
        "{walks} walks, the longest of {longest} rows"
    );
}

/// Each row is held 15 times, and the last one goes back to the first 15 times.
#[test]
fn a_closed_tune_is_long() {
    let held = |row| (0, row, 4, [S, 0xEF]);
    let puts: Vec<Put> = (0..64).map(held).chain([(0, 63, 5, [S, 0xBF])]).collect();
    for orders in [1, 2, 7] {
        let tune = closed::table(&vec![0; orders], 1, &puts, pitch::opening());
        assert!(is_closed(&tune));
        assert_eq!(walked(&tune, MOST_AN_ORDER * orders), (16_159 * orders, true));
    }
}

/// The mask 0x0C0B0A09 and the start 0x0807060504030201, with other bytes about them.
fn punched() -> [u8; RECORD_BYTES] {
    let mut record = [0x5A; RECORD_BYTES];
    record[8..20].copy_from_slice(&[1, 2, 3, 4, 5, 6, 7, 8, 9, 10, 11, 12]);
    record
}

/// Each allowed status, and those behind load, strike and clear, worked out by hand from 02.
#[test]
fn a_step_is_02s() {
    let statuses = [
        (0x00, [0x01, 0x00, 0x00]),
        (0x01, [0x03, 0x80, 0x01]),
        (0x02, [0x03, 0x02, 0x00]),
        (0x03, [0x03, 0x82, 0x01]),
        (0x80, [0x81, 0x80, 0x00]),
        (0x81, [0x83, 0x80, 0x01]),
        (0x82, [0x83, 0x82, 0x00]),
        (0x83, [0x83, 0x82, 0x01]),
    ];
    let there = [31, 32, 33, 34, 35, 36, 37, 38, 39, 40, 41, 42];
    let taken = [9, 10, 11, 12, 1, 2, 3, 4, 5, 6, 7, 8];
    let registers = |command, status, rest| [&[command, status, 0, 0][..], rest].concat();
    for (before, [loaded, struck, cleared]) in statuses {
        // The row that is there stays where one is loaded.
        let row = if before & 1 == 1 { &there } else { &taken };
        let behind = [
            (LOAD, loaded, row),
            (STRIKE, struck, &there),
            (CLEAR, cleared, &there),
            (0, before, &there),
            (4, before, &there),
            (129, before, &there),
        ];
        for (command, status, rest) in behind {
            let mut stepped = registers(77, before, &there);
            step(&mut stepped, command, &punched());
            assert_eq!(stepped, registers(command, status, rest), "{command} at {before:#x}");
        }
    }
}

/// So many registers, 0 but for one: what a step on them is refused by, which leaves all as it was.
#[test]
fn a_step_is_refused_by_255_then_15_then_13() {
    let refused = |(at, byte): (usize, u8), length, command, record| {
        let mut registers = vec![0; 20];
        registers[at] = byte;
        registers.truncate(length);
        let case = Case::of(Call::head_step(&registers, command, &punched()[..record]));
        assert!(case.answer.refusal() == 0 || case.answer.slots == case.call.slots);
        case.answer.refusal()
    };
    // Any command, and what is in byte 0, are no fault.
    for (byte, command) in [(0, 0), (255, 1), (1, 2), (2, 3), (3, 4), (9, 255)] {
        assert_eq!(refused((0, byte), 16, command, 536), 0);
    }
    for command in 0..=4 {
        let by = |edit, length| refused(edit, length, command, 536);
        assert_eq!([0, 15, 17].map(|length| by((0, 0), length)), [15; 3]);
        assert_eq!([(2, 1), (2, 128), (3, 1), (3, 128)].map(|edit| by(edit, 16)), [15; 4]);
        let bits = [0, 1, 2, 3, 4, 5, 6, 7].map(|bit| by((1, 1 << bit), 16));
        assert_eq!(bits, [0, 0, 15, 15, 15, 15, 15, 0]);
    }
    // A short record, on a load only, loaded or not; registers are asked first, and a command that is no byte before them.
    assert_eq!([0, 1, 535].map(|length| refused((0, 0), 16, 1, length)), [13; 3]);
    assert_eq!(refused((1, 1), 16, 1, 535), 13);
    assert_eq!([0, 2, 3, 4, 255].map(|command| refused((0, 0), 16, command, 0)), [0; 5]);
    assert_eq!(refused((3, 1), 16, 1, 535), 15);
    assert_eq!(
        [256, 257, u32::MAX].map(|command| refused((0, 0), 16, command, 536)),
        [255; 3]
    );
    assert_eq!(refused((3, 1), 16, 257, 0), 255);
}

/// 02: 'Over every list of commands from sixteen zero bytes, strikes done plus one if loaded equals loads that were taken.'
/// Here every list of seven commands from 0 to 3. A load that was taken is told by the mask, which is another for each row.
#[test]
fn strikes_and_loads_add_up() {
    for list in 0..1 << 14 {
        let (mut registers, mut taken, mut struck) = ([0; 16], 0, 0);
        for n in 0..7 {
            let command = (list >> (2 * n) & 3) as u8;
            let before = registers;
            let row = [&[0; 16][..], &[n + 1], &[0; 519]].concat();
            step(&mut registers, command, &row);
            taken += u8::from(registers[4] == n + 1);
            struck += u8::from(command == STRIKE && registers[1] != before[1]);
        }
        assert_eq!(struck + (registers[1] & 1), taken, "{list:#x}");
    }
}

/// Worked out by hand from 02: octave × 12 + semitone, uncut, and the transposition, then cut.
#[test]
fn a_transposed_number_is_02s() {
    let numbers = [
        (0x00, 0, 0),
        (0x00, -24, 0),
        (0x00, 24, 24),
        (0x0B, -12, 0),
        (0x17, -20, 0),
        (0x17, -19, 0),
        (0x17, -18, 1),
        (0x40, -1, 47),
        // 60: semitones 12 to 15 count on into the next octave.
        (0x4C, 0, 60),
        (0x4C, 1, 61),
        (0x4F, -3, 60),
        (0x8B, 0, 107),
        (0x8B, 1, 107),
        (0x8B, -1, 106),
        // 111, which would be 102 if it were cut before.
        (0x8F, -5, 106),
        (0x8F, -4, 107),
        (0x8F, -3, 107),
        (0x80, 24, 107),
        (0xFD, 24, 107),
        (0xFD, -24, 107),
        (0xA0, -24, 96),
    ];
    for (note, transposition, expected) in numbers {
        assert_eq!(number(note, transposition), expected, "{note:#x} by {transposition}");
    }
}

/// The note byte of a number, with a semitone of 0 to 11.
fn note_of(number: i32) -> u8 {
    (number / 12 * 16 + number % 12) as u8
}

/// At transposition 0 the original's own function answers, and elsewhere as it does for the note that 02's number has.
#[test]
fn a_transposed_pitch_is_the_originals_of_another_note() {
    for c5 in [1, 2, 3, 440, 8363, 22_050, 65_535, 1 << 27, u32::MAX] {
        for note in 0..=255 {
            for transposition in SPAN {
                let plain = frequency(note_of(number(note, transposition)), 0, c5);
                let given = frequency(note, transposition, c5);
                assert_eq!(given.to_bits(), plain.to_bits(), "{note:#x} by {transposition} at {c5}");
            }
        }
    }
}

/// Every place where a row works out a pitch: a tune of transposed channels has the rows of one whose channels are not, with
/// the notes of 02's numbers, but for the last notes. A last note 0 is none to a slide and a finetune, so it is left out.
#[test]
fn transposed_rows_are_the_originals_of_other_notes() {
    let c5_speeds = [8363, 11_025, 16_000, 22_050, 32_000, 1 << 27];
    let adlib = std::array::from_fn(|k| k % 3 == 0);
    for shift in 0..49 {
        let by = |k: usize| ((k + shift) % 49) as i8 - 24;
        let other = |note: u8, k: usize| note_of(number(note, by(k)));
        let usable = |note: u8, k| if other(note, k) == 0 { 0x40 } else { note };
        let notes = (1..254).filter(|note| usize::from(*note) % 7 == shift % 7);
        let notes: Vec<[u8; CHANNELS]> = notes.map(|note| std::array::from_fn(|k| usable(note, k))).collect();
        let others = notes.iter().map(|row| std::array::from_fn(|k| other(row[k], k)));
        let mut transposed = transposed::tune(&notes, c5_speeds, adlib);
        transposed::transpose(&mut transposed, by);
        let plain = transposed::tune(&others.collect::<Vec<_>>(), c5_speeds, adlib);
        let rows = notes.len() * transposed::BLOCK;
        let [ours, theirs] = [&transposed, &plain].map(|tune| heard(tune, rows));
        assert_eq!(ours.len(), rows * RECORD_BYTES);
        assert!(ours == theirs, "from {} on", by(0));
    }
}

/// The records of so many rows, without last notes.
fn heard(tune: &Tune, rows: usize) -> Vec<u8> {
    let mut output = vec![0; rows * RECORD_BYTES];
    Original::new(tune).rows_recorded(&open(tune).encode(), rows, &mut output);
    for record in output.chunks_exact_mut(RECORD_BYTES) {
        record[24..].chunks_exact_mut(16).for_each(|channel| channel[12] = 0);
    }
    output
}

/// Each byte in one channel: outside −24 to 24 it is refused as 10 by Open and as 11 by Section.
#[test]
fn a_transposition_is_taken_within_its_span() {
    let tune = pitch::tune(&[pitch::note(0x40, 8363)]);
    let state = open(&tune).encode();
    for (byte, channel) in (0..=255).zip((0..CHANNELS).cycle()) {
        let within = (-24..=24).contains(&(byte as i8));
        let rule = |rule| if within { 0 } else { rule };
        for mut call in [Call::open(&tune), Call::open_closed(&tune)] {
            call.slots[3][TRANSPOSITIONS + channel] = byte;
            assert_eq!(Case::of(call).answer.refusal(), rule(10), "{byte}");
        }
        let mut call = Call::section(&tune, state.clone(), 1, 0);
        call.slots[3][HEAD_BYTES + CHANNEL_BYTES * channel + TRANSPOSITION] = byte;
        assert_eq!(Case::of(call).answer.refusal(), rule(11), "{byte}");
    }
}

/// Three records that differ in the first two columns and the last, stored by hand from 02.
#[test]
fn columns_are_02s() {
    let record = |first: [u8; 2], last: u8| [&first[..], &[9; 533], &[last]].concat();
    let records = [record([5, 255], 0), record([3, 0], 255), record([5, 255], 0)].concat();
    let columns = [&[5, 254, 2, 255, 1, 255][..], &[9, 0, 0].repeat(533), &[0, 255, 1]].concat();
    assert_eq!(store(&records), columns);
    assert_eq!(restore(&columns), records);
    // Of a record alone each byte is a column's first.
    let alone: Vec<u8> = (0..=255).cycle().take(RECORD_BYTES).collect();
    assert_eq!(store(&alone), alone);
    assert_eq!(restore(&alone), alone);
}

/// 02: 'Storing then restoring is the identity, and restoring then storing too.'
#[test]
fn columns_are_undone() {
    let random = &mut Random::new(7);
    for m in 1..=130 {
        let bytes = columns::bytes(random, m);
        assert_eq!(restore(&store(&bytes)), bytes, "{m} records");
        assert_eq!(store(&restore(&bytes)), bytes, "{m} records");
    }
}

/// What storing and restoring m records are refused by, of so many bytes into so many; a refusal leaves all as it was.
#[test]
fn columns_are_refused_by_16() {
    let refused = |m, input: usize, output: usize| {
        let refusals = [Function::Store, Function::Restore].map(|function| {
            let case = Case::of(Call::of_columns(function, m, &vec![7; input], output));
            assert!(case.answer.refusal() == 0 || case.answer.slots == case.call.slots);
            case.answer.number
        });
        assert_eq!(refusals[0], refusals[1]);
        refusals[0]
    };
    let taken = [(1, 536), (2, 1_072), (122, 65_392), (65_535, 35_126_760)];
    assert_eq!(taken.map(|(m, bytes)| refused(m, bytes, bytes)), [0; 4]);
    let outside = [
        (0, 0),
        (0, 536),
        (65_536, 35_127_296),
        (65_537, 536),
        (1 << 29 | 1, 536),
        (u32::MAX, 0),
    ];
    assert_eq!(outside.map(|(m, bytes)| refused(m, bytes, bytes)), [16 << 24; 6]);
    for bytes in [0, 535, 537, 1_071, 1_073, 1_608] {
        assert_eq!(
            [
                refused(2, bytes, 1_072),
                refused(2, 1_072, bytes),
                refused(2, bytes, bytes)
            ],
            [16 << 24; 3]
        );
    }
}
