//! Records in column order, as an archive keeps them.

use crate::{MOST_ROWS, RECORD_BYTES, Record, Refusal, ffi};

/// The records in column order, in which like bytes lie together: 536 columns of a byte for each record, the first as it is
/// and each other as its wrapping difference from the one before. [`restore`] gives the records back. There are 1 to 65,535
/// of them, or it is refused (rule 16).
///
/// ```
/// let tune = lomqashe::Tune::read(include_bytes!("../../oracle/examples/worked.s3m"), 60_000)?;
/// let records: Vec<_> = tune.rows(50)?.collect();
/// let columns = lomqashe::store(&records)?;
/// // Byte 4 of a record is the row's speed: 6, 6 and 3.
/// assert_eq!(columns[4 * 3..5 * 3], [6, 0, 253]);
/// assert_eq!(lomqashe::restore(&columns)?, records);
/// assert_eq!(lomqashe::store(&[]).unwrap_err().number(), 16);
/// # Ok::<(), lomqashe::Refusal>(())
/// ```
pub fn store(records: &[Record]) -> Result<Vec<u8>, Refusal> {
    let (m, mut columns) = lend(size_of_val(records));
    let mut joined = Vec::with_capacity(columns.len());
    for record in &records[..columns.len() / RECORD_BYTES] {
        joined.extend_from_slice(record.as_bytes());
    }
    ffi::store(&joined, m, &mut columns)?;
    Ok(columns)
}

/// The records whose columns [`store`] wrote. Any bytes are the columns of some records, where they are as many as 1 to
/// 65,535 records have; others are refused (rule 16).
///
/// ```
/// let mut columns = [0; 2 * lomqashe::RECORD_BYTES];
/// // Byte 0 of both records, then byte 1 of both: 9 and 9, 200 and 200 + 100 - 256.
/// columns[..4].copy_from_slice(&[9, 0, 200, 100]);
/// let records = lomqashe::restore(&columns)?;
/// assert_eq!((records[0].order(), records[0].pattern()), (9, 200));
/// assert_eq!((records[1].order(), records[1].pattern()), (9, 44));
/// assert_eq!(lomqashe::store(&records)?, columns);
/// assert_eq!(lomqashe::restore(&columns[1..]).unwrap_err().number(), 16);
/// # Ok::<(), lomqashe::Refusal>(())
/// ```
pub fn restore(columns: &[u8]) -> Result<Vec<Record>, Refusal> {
    let (m, mut joined) = lend(columns.len());
    ffi::restore(columns, m, &mut joined)?;
    let (records, _) = joined.as_chunks();
    Ok(records.iter().map(Record::from_bytes).collect())
}

/// How many records have so many bytes, and as many bytes to write to. Where the library refuses that number, or bytes are
/// left over, none are lent.
fn lend(bytes: usize) -> (u32, Vec<u8>) {
    let m = u32::try_from(bytes / RECORD_BYTES).unwrap_or(u32::MAX);
    let is_taken = m <= MOST_ROWS && bytes.is_multiple_of(RECORD_BYTES);
    (m, vec![0; if is_taken { bytes } else { 0 }])
}
