//! Records in column order: 02's words on small numbers by hand, on many by a plain loop, and both ways to and fro.

use lomqashe::{MOST_ROWS, RECORD_BYTES, Record, Refusal, Tune, restore, store};

const WORKED: &[u8] = include_bytes!("../../oracle/examples/worked.s3m");
const MOST: usize = MOST_ROWS as usize;
/// About the library's tiles of 16 records and blocks of 768 behind the first record.
#[rustfmt::skip]
const EDGES: [usize; 21] = [
    1, 2, 3, 15, 16, 17, 18, 31, 32, 33, 34, 768, 769, 770, 784, 785, 786, 1_536, 1_537, 1_538, 1_553,
];

/// 02's columns: each byte but a column's first as its wrapping difference from the one before.
fn columns_of(records: &[Record]) -> Vec<u8> {
    let mut out = Vec::with_capacity(records.len() * RECORD_BYTES);
    for column in 0..RECORD_BYTES {
        let mut before = 0;
        for record in records {
            let byte = record.as_bytes()[column];
            out.push(byte.wrapping_sub(before));
            before = byte;
        }
    }
    out
}

/// Bytes of which a section writes no record.
fn random_bytes(count: usize, seed: u64) -> Vec<u8> {
    let mut state = seed;
    let words = (0..count.div_ceil(8)).flat_map(|_| {
        state ^= state << 13;
        state ^= state >> 7;
        state ^= state << 17;
        state.to_le_bytes()
    });
    words.take(count).collect()
}

fn records_of(bytes: &[u8]) -> Vec<Record> {
    let (records, rest) = bytes.as_chunks();
    assert!(rest.is_empty());
    records.iter().map(Record::from_bytes).collect()
}

fn number(given: Result<impl Sized, Refusal>) -> u8 {
    given.err().expect("it is refused").number()
}

#[test]
fn three_records_by_hand() {
    let mut bytes = [0; 3 * RECORD_BYTES];
    // Bytes 0, 1 and 535 of the three records.
    for (record, [first, second, last]) in [[5, 0, 255], [7, 128, 0], [4, 0, 255]].into_iter().enumerate() {
        bytes[record * RECORD_BYTES] = first;
        bytes[record * RECORD_BYTES + 1] = second;
        bytes[record * RECORD_BYTES + 535] = last;
    }
    let mut expected = [0; 3 * RECORD_BYTES];
    expected[..6].copy_from_slice(&[5, 2, 253, 0, 128, 128]);
    expected[3 * 535..].copy_from_slice(&[255, 1, 255]);
    assert_eq!(store(&records_of(&bytes)).unwrap(), expected);
    assert_eq!(restore(&expected).unwrap(), records_of(&bytes));
}

#[test]
fn one_record_is_its_own_columns() {
    let bytes = random_bytes(RECORD_BYTES, 1);
    assert_eq!(store(&records_of(&bytes)).unwrap(), bytes);
    assert_eq!(restore(&bytes).unwrap(), records_of(&bytes));
}

#[test]
fn every_two_bytes_have_their_difference() {
    for before in 0..=255 {
        let records =
            [[before; RECORD_BYTES], std::array::from_fn(|k| k as u8)].map(|bytes| Record::from_bytes(&bytes));
        let columns = store(&records).unwrap();
        for (k, column) in columns.chunks(2).enumerate() {
            let difference = (k + 256 - usize::from(before)) % 256;
            assert_eq!(column, [before, difference as u8], "{k} behind {before}");
        }
        assert_eq!(restore(&columns).unwrap(), records);
    }
}

#[test]
fn any_bytes_go_to_and_fro() {
    for m in EDGES.into_iter().chain([MOST]) {
        let bytes = random_bytes(m * RECORD_BYTES, m as u64);
        let records = records_of(&bytes);
        let columns = store(&records).unwrap();
        assert!(columns == columns_of(&records), "{m} stored");
        assert!(restore(&columns).unwrap() == records, "{m} stored and restored");
        let restored = restore(&bytes).unwrap();
        assert!(columns_of(&restored) == bytes, "{m} restored");
        assert!(store(&restored).unwrap() == bytes, "{m} restored and stored");
    }
}

#[test]
fn the_rows_of_a_tune_come_back() {
    let tune = Tune::read(WORKED, 60_000).unwrap();
    let records: Vec<Record> = tune.rows(50).unwrap().collect();
    let columns = store(&records).unwrap();
    assert_eq!(columns, columns_of(&records));
    // Starts 0, 7,200 = 0x1C20 and 14,400 = 0x3840 have their low bytes at 8, the next at 9.
    assert_eq!(columns[8 * 3..10 * 3], [0, 0x20, 0x20, 0, 0x1C, 0x1C]);
    let restored = restore(&columns).unwrap();
    assert_eq!(restored, records);
    assert_eq!(restored[2].line(), "0,0,1,0,3,125,14400,3600,0\n");
}

#[test]
fn other_numbers_of_records_and_bytes_are_rule_16() {
    assert_eq!(number(store(&[])), 16);
    assert_eq!(number(restore(&[])), 16);
    let blank = Record::from_bytes(&[0; RECORD_BYTES]);
    assert_eq!(number(store(&vec![blank; MOST + 1])), 16);
    let bytes = vec![0; (MOST + 1) * RECORD_BYTES + 1];
    for length in [
        1,
        RECORD_BYTES - 1,
        RECORD_BYTES + 1,
        3 * RECORD_BYTES - 1,
        MOST * RECORD_BYTES - 1,
        MOST * RECORD_BYTES + 1,
        (MOST + 1) * RECORD_BYTES,
        (MOST + 1) * RECORD_BYTES + 1,
    ] {
        assert_eq!(number(restore(&bytes[..length])), 16, "{length} bytes");
    }
    assert_eq!(
        restore(&[]).unwrap_err().to_string(),
        "the records to store or restore are not 1 to 65,535 of 536 bytes each, or the output has another length (rule 16)"
    );
}
