//! The punch head: every status with every command, what breaks its registers, and lists of steps.

use lomqashe::{HeadStatus, PunchHead, RECORD_BYTES, Record, Refusal, Tune};

const WORKED: &[u8] = include_bytes!("../../oracle/examples/worked.s3m");

/// Each status that a head may have, and those behind load, strike and clear.
const STATUSES: [(u8, [u8; 3]); 8] = [
    (0x00, [0x01, 0x00, 0x00]),
    (0x01, [0x03, 0x80, 0x01]),
    (0x02, [0x03, 0x02, 0x00]),
    (0x03, [0x03, 0x82, 0x01]),
    (0x80, [0x81, 0x80, 0x00]),
    (0x81, [0x83, 0x80, 0x01]),
    (0x82, [0x83, 0x82, 0x00]),
    (0x83, [0x83, 0x82, 0x01]),
];
/// Mask and position that are there, and those of the record.
const THERE: [u8; 12] = [31, 32, 33, 34, 35, 36, 37, 38, 39, 40, 41, 42];
const TAKEN: [u8; 12] = [9, 10, 11, 12, 1, 2, 3, 4, 5, 6, 7, 8];

fn record() -> Record {
    let mut bytes = [0x5A; RECORD_BYTES];
    bytes[8..20].copy_from_slice(&[1, 2, 3, 4, 5, 6, 7, 8, 9, 10, 11, 12]);
    Record::from_bytes(&bytes)
}

fn registers(command: u8, status: u8, rest: &[u8; 12]) -> [u8; 16] {
    let mut out = [command, status, 0, 0, 0, 0, 0, 0, 0, 0, 0, 0, 0, 0, 0, 0];
    out[4..].copy_from_slice(rest);
    out
}

fn number(given: Result<impl Sized, Refusal>) -> u8 {
    given.err().expect("it is refused").number()
}

#[test]
fn every_command_at_every_status() {
    for (before, behind) in STATUSES {
        for command in 0..=255 {
            // Another command stands there before.
            let mut head = PunchHead::from_bytes(&registers(!command, before, &THERE)).unwrap();
            head.step(command, record().as_ref()).unwrap();
            let status = match command {
                1..=3 => behind[usize::from(command) - 1],
                _ => before,
            };
            let takes = command == 1 && before & 1 == 0;
            let rest = if takes { &TAKEN } else { &THERE };
            assert_eq!(
                head.as_bytes(),
                &registers(command, status, rest),
                "{command} at {before:#x}"
            );
        }
    }
}

#[test]
fn the_three_commands_have_their_own_calls() {
    for (before, [loaded, struck, cleared]) in STATUSES {
        let head = || PunchHead::from_bytes(&registers(77, before, &THERE)).unwrap();
        let waits = before & 1 == 1;
        let mut loading = head();
        assert_eq!(loading.load(&record()), !waits);
        let rest = if waits { &THERE } else { &TAKEN };
        assert_eq!(loading.as_bytes(), &registers(1, loaded, rest));
        let mut striking = head();
        assert_eq!(striking.strike(), waits);
        assert_eq!(striking.as_bytes(), &registers(2, struck, &THERE));
        let mut clearing = head();
        clearing.clear();
        assert_eq!(clearing.as_bytes(), &registers(3, cleared, &THERE));
    }
}

#[test]
fn registers_are_read_by_name() {
    let head = PunchHead::from_bytes(&registers(200, 0x82, &TAKEN)).unwrap();
    let status = HeadStatus {
        loaded: false,
        late: true,
        interrupt: true,
    };
    assert_eq!((head.command(), head.status()), (200, status));
    assert_eq!((head.mask(), head.position()), (0x0C0B_0A09, 0x0807_0605_0403_0201));
    let new = PunchHead::new();
    assert_eq!((new.as_bytes(), new.status()), (&[0; 16], HeadStatus::default()));
    assert_eq!(
        format!("{new:?}"),
        "PunchHead { command: 0, status: HeadStatus { loaded: false, late: false, interrupt: false }, mask: 0, position: 0 }"
    );
}

#[test]
fn broken_registers_are_rule_15() {
    for status in 0..=255 {
        let bytes = registers(1, status, &THERE);
        let is_allowed = STATUSES.iter().any(|&(allowed, _)| allowed == status);
        let head = PunchHead::from_bytes(&bytes).map(|head| *head.as_bytes());
        let expected = if is_allowed { Ok(bytes) } else { Err(15) };
        assert_eq!(head.map_err(Refusal::number), expected, "{status:#x}");
    }
    for (at, byte) in [2, 3].into_iter().flat_map(|at| (1..=255).map(move |byte| (at, byte))) {
        let mut bytes = registers(2, 1, &THERE);
        bytes[at] = byte;
        assert_eq!(number(PunchHead::from_bytes(&bytes)), 15);
    }
    for length in [0, 1, 15, 17, 32] {
        assert_eq!(number(PunchHead::try_from(&vec![0; length][..])), 15);
    }
    assert_eq!(
        PunchHead::try_from(&[0; 17][..]).unwrap_err().to_string(),
        "the punch head's registers are not 16 bytes, their byte 2 or 3 is not 0, or a status bit other than 0, 1 and 7 is \
         set (rule 15)"
    );
}

#[test]
fn a_load_refuses_a_record_of_another_length_whether_loaded_or_not() {
    for (status, _) in STATUSES {
        let bytes = registers(77, status, &THERE);
        let mut head = PunchHead::from_bytes(&bytes).unwrap();
        for length in [0, 20, 535, 537] {
            assert_eq!(number(head.step(1, &vec![0; length])), 13);
            assert_eq!(head.as_bytes(), &bytes);
        }
        for command in [0, 2, 3, 4, 255] {
            head.step(command, &[0; 535]).unwrap();
            assert_eq!(head.command(), command);
        }
    }
}

/// Every list of seven commands from 0 to 3, each step with a row of another mask.
#[test]
fn strikes_done_and_a_row_that_waits_are_the_loads_taken() {
    for list in 0..1 << 14 {
        let (mut head, mut taken, mut struck) = (PunchHead::new(), 0, 0);
        for n in 0..7 {
            let mut row = [0; RECORD_BYTES];
            row[16] = n + 1;
            match list >> (2 * n) & 3 {
                1 => {
                    let load = head.load(&Record::from_bytes(&row));
                    assert_eq!(load, head.mask() == u32::from(n) + 1);
                    taken += u32::from(load);
                }
                2 => struck += u32::from(head.strike()),
                3 => head.clear(),
                _ => head.step(0, &[]).unwrap(),
            }
            assert_eq!(struck + u32::from(head.status().loaded), taken, "{list:#x}");
        }
    }
}

#[test]
fn a_late_row_is_loaded_again_behind_the_strike() {
    let tune = Tune::read(WORKED, 60_000).unwrap();
    let mut head = PunchHead::default();
    let mut punched = Vec::new();
    for record in tune.rows(50).unwrap() {
        while !head.load(&record) {
            punched.push((head.position(), head.mask()));
            assert!(head.strike());
        }
    }
    punched.push((head.position(), head.mask()));
    assert!(head.strike() && !head.strike());
    assert_eq!(punched, [(0, 1), (7_200, 0), (14_400, 0)]);
    let status = head.status();
    assert!(status.late && status.interrupt && !status.loaded);
    head.clear();
    assert_eq!(head.status(), HeadStatus::default());
}
