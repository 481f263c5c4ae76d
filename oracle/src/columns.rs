//! Column order for stored sheets, from 02's words: what is written of m records, and what undoes it.

use crate::tune::RECORD_BYTES;

/// 02: 'm records (1 to 65,535)'.
pub const LEAST_RECORDS: u32 = 1;
pub const MOST_RECORDS: u32 = 65_535;

/// 02: 'writes m records as 536 columns of m bytes, each byte but a column's first as its wrapping difference from the one
/// before.'
pub fn store(records: &[u8]) -> Vec<u8> {
    let mut columns = Vec::with_capacity(records.len());
    for column in 0..RECORD_BYTES {
        let mut before = None;
        for record in records.chunks_exact(RECORD_BYTES) {
            let byte = record[column];
            columns.push(match before {
                None => byte,
                Some(before) => byte.wrapping_sub(before),
            });
            before = Some(byte);
        }
    }
    columns
}

/// 02: 'A second call undoes it.'
pub fn restore(columns: &[u8]) -> Vec<u8> {
    let m = columns.len() / RECORD_BYTES;
    let mut records = vec![0; columns.len()];
    for (column, stored) in columns.chunks_exact(m).enumerate() {
        records[column] = stored[0];
        for record in 1..m {
            let before = records[(record - 1) * RECORD_BYTES + column];
            records[record * RECORD_BYTES + column] = before.wrapping_add(stored[record]);
        }
    }
    records
}
