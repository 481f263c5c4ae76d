//! The exported functions of crates/lomqashe_c. They ask nothing of a caller but that each slice
//! is alive, and write only into the slices that they are lent. A slice is passed as a pointer
//! and then a length. include/lomqashe.h says what each does.

use crate::Refusal;

mod raw {
    unsafe extern "C" {
        pub fn lomqashe_measure(file: *const u8, file_len: usize, counts: *mut u8, counts_len: usize) -> u32;
        pub fn lomqashe_read(
            file: *const u8,
            file_len: usize,
            rate: u32,
            orders: *mut u8,
            orders_len: usize,
            samples: *mut u8,
            samples_len: usize,
            cells: *mut u8,
            cells_len: usize,
            opening: *mut u8,
            opening_len: usize,
        ) -> u32;
        pub fn lomqashe_open(
            orders: *const u8,
            orders_len: usize,
            cells: *const u8,
            cells_len: usize,
            samples: *const u8,
            samples_len: usize,
            opening: *const u8,
            opening_len: usize,
            state: *mut u8,
            state_len: usize,
        ) -> u32;
        pub fn lomqashe_is_closed(
            orders: *const u8,
            orders_len: usize,
            cells: *const u8,
            cells_len: usize,
            samples: *const u8,
            samples_len: usize,
        ) -> u32;
        pub fn lomqashe_open_closed(
            orders: *const u8,
            orders_len: usize,
            cells: *const u8,
            cells_len: usize,
            samples: *const u8,
            samples_len: usize,
            opening: *const u8,
            opening_len: usize,
            state: *mut u8,
            state_len: usize,
        ) -> u32;
        pub fn lomqashe_section(
            orders: *const u8,
            orders_len: usize,
            cells: *const u8,
            cells_len: usize,
            samples: *const u8,
            samples_len: usize,
            state: *mut u8,
            state_len: usize,
            n: u32,
            output: *mut u8,
            output_len: usize,
        ) -> u32;
        pub fn lomqashe_strikes(row: *const u8, row_len: usize, out: *mut u8, out_len: usize) -> u32;
        pub fn lomqashe_line(row: *const u8, row_len: usize, out: *mut u8, out_len: usize) -> u32;
        pub fn lomqashe_head_step(
            registers: *mut u8,
            registers_len: usize,
            command: u32,
            record: *const u8,
            record_len: usize,
        ) -> u32;
        pub fn lomqashe_store(
            records: *const u8,
            records_len: usize,
            m: u32,
            columns: *mut u8,
            columns_len: usize,
        ) -> u32;
        pub fn lomqashe_restore(
            columns: *const u8,
            columns_len: usize,
            m: u32,
            records: *mut u8,
            records_len: usize,
        ) -> u32;
    }
}

/// An answer's low 24 bits, or the refusal in its high 8.
fn answer(number: u32) -> Result<u32, Refusal> {
    match Refusal::new((number >> 24) as u8) {
        Some(refusal) => Err(refusal),
        None => Ok(number & 0xFF_FFFF),
    }
}

// In each function below the slices are alive for the call, and the borrow checker keeps those that are written apart
// from all others.

pub fn measure(file: &[u8], counts: &mut [u8]) -> Result<u32, Refusal> {
    answer(unsafe { raw::lomqashe_measure(file.as_ptr(), file.len(), counts.as_mut_ptr(), counts.len()) })
}

pub fn read(
    file: &[u8],
    rate: u32,
    orders: &mut [u8],
    samples: &mut [u8],
    cells: &mut [u8],
    opening: &mut [u8],
) -> Result<u32, Refusal> {
    answer(unsafe {
        raw::lomqashe_read(
            file.as_ptr(),
            file.len(),
            rate,
            orders.as_mut_ptr(),
            orders.len(),
            samples.as_mut_ptr(),
            samples.len(),
            cells.as_mut_ptr(),
            cells.len(),
            opening.as_mut_ptr(),
            opening.len(),
        )
    })
}

pub fn open(orders: &[u8], cells: &[u8], samples: &[u8], opening: &[u8], state: &mut [u8]) -> Result<u32, Refusal> {
    answer(unsafe {
        raw::lomqashe_open(
            orders.as_ptr(),
            orders.len(),
            cells.as_ptr(),
            cells.len(),
            samples.as_ptr(),
            samples.len(),
            opening.as_ptr(),
            opening.len(),
            state.as_mut_ptr(),
            state.len(),
        )
    })
}

/// 1 where the tune is closed, 0 where it is not.
pub fn is_closed(orders: &[u8], cells: &[u8], samples: &[u8]) -> Result<u32, Refusal> {
    answer(unsafe {
        raw::lomqashe_is_closed(
            orders.as_ptr(),
            orders.len(),
            cells.as_ptr(),
            cells.len(),
            samples.as_ptr(),
            samples.len(),
        )
    })
}

pub fn open_closed(
    orders: &[u8],
    cells: &[u8],
    samples: &[u8],
    opening: &[u8],
    state: &mut [u8],
) -> Result<u32, Refusal> {
    answer(unsafe {
        raw::lomqashe_open_closed(
            orders.as_ptr(),
            orders.len(),
            cells.as_ptr(),
            cells.len(),
            samples.as_ptr(),
            samples.len(),
            opening.as_ptr(),
            opening.len(),
            state.as_mut_ptr(),
            state.len(),
        )
    })
}

pub fn section(
    orders: &[u8],
    cells: &[u8],
    samples: &[u8],
    state: &mut [u8],
    rows: u32,
    output: &mut [u8],
) -> Result<u32, Refusal> {
    answer(unsafe {
        raw::lomqashe_section(
            orders.as_ptr(),
            orders.len(),
            cells.as_ptr(),
            cells.len(),
            samples.as_ptr(),
            samples.len(),
            state.as_mut_ptr(),
            state.len(),
            rows,
            output.as_mut_ptr(),
            output.len(),
        )
    })
}

/// The struck channels go into `out` from the lowest frequency up.
pub fn strikes(record: &[u8], out: &mut [u8]) -> Result<u32, Refusal> {
    answer(unsafe { raw::lomqashe_strikes(record.as_ptr(), record.len(), out.as_mut_ptr(), out.len()) })
}

pub fn line(record: &[u8], out: &mut [u8]) -> Result<u32, Refusal> {
    answer(unsafe { raw::lomqashe_line(record.as_ptr(), record.len(), out.as_mut_ptr(), out.len()) })
}

/// A load alone looks at the record.
pub fn head_step(registers: &mut [u8], command: u32, record: &[u8]) -> Result<u32, Refusal> {
    answer(unsafe {
        raw::lomqashe_head_step(
            registers.as_mut_ptr(),
            registers.len(),
            command,
            record.as_ptr(),
            record.len(),
        )
    })
}

pub fn store(records: &[u8], m: u32, columns: &mut [u8]) -> Result<u32, Refusal> {
    answer(unsafe { raw::lomqashe_store(records.as_ptr(), records.len(), m, columns.as_mut_ptr(), columns.len()) })
}

pub fn restore(columns: &[u8], m: u32, records: &mut [u8]) -> Result<u32, Refusal> {
    answer(unsafe { raw::lomqashe_restore(columns.as_ptr(), columns.len(), m, records.as_mut_ptr(), records.len()) })
}

#[cfg(test)]
mod tests {
    use super::*;
    use crate::opening::OPENING_BYTES;

    const WORKED: &[u8] = include_bytes!("../../oracle/examples/worked.s3m");
    const UNTOUCHED: u8 = 0xA5;

    fn number(answer: Result<u32, Refusal>) -> u8 {
        answer.map_or_else(Refusal::number, |given| panic!("it gave {given}"))
    }

    /// A call with bytes of a wrong length, which must stay.
    fn wrong(length: usize, call: impl FnOnce(&mut [u8]) -> Result<u32, Refusal>) {
        let mut lent = vec![UNTOUCHED; length];
        assert_eq!(number(call(&mut lent)), 255, "{length} bytes");
        assert!(lent.iter().all(|&byte| byte == UNTOUCHED));
    }

    #[test]
    fn wrong_lengths_are_255_and_nothing_is_written() {
        let orders = [0];
        for length in [0, 11, 13] {
            wrong(length, |counts| measure(WORKED, counts));
        }
        for length in [0, 144, 175, 177] {
            wrong(length, |opening| {
                read(WORKED, 60_000, &mut [0], &mut [0; 20], &mut [0; 10_240], opening)
            });
            let opening = vec![0; length];
            wrong(2_624, |state| open(&orders, &[], &[], &opening, state));
            wrong(2_624, |state| open_closed(&orders, &[], &[], &opening, state));
        }
        for length in [0, 2_623, 2_625] {
            wrong(length, |state| open(&orders, &[], &[], &[0; OPENING_BYTES], state));
            wrong(length, |state| {
                open_closed(&orders, &[], &[], &[0; OPENING_BYTES], state)
            });
            wrong(length, |state| section(&orders, &[], &[], state, 0, &mut []));
        }
    }

    #[test]
    fn a_wrong_length_is_told_before_any_rule() {
        wrong(11, |counts| measure(b"", counts));
        wrong(144, |opening| read(b"", 0, &mut [], &mut [], &mut [], opening));
        wrong(2_623, |state| open(&[], &[], &[], &[0; OPENING_BYTES], state));
        wrong(2_623, |state| open_closed(&[], &[], &[], &[0; OPENING_BYTES], state));
        wrong(2_623, |state| section(&[], &[], &[], state, u32::MAX, &mut []));
    }

    /// S00 in the first cell of one pattern, with opening values that break rule 10 or not.
    #[test]
    fn a_closed_tune_is_asked_for_last_and_nothing_is_written() {
        let mut cells = [255, 0, 255, 0, 0].repeat(2_048);
        let good: Vec<u8> = [&[6, 125, 64, 0, 0, 0, 0, 0, 1][..], &[0; OPENING_BYTES - 9]].concat();
        let refused = |orders: &[u8], cells: &[u8], opening: &[u8]| {
            let mut state = [UNTOUCHED; 2_624];
            let rule = number(open_closed(orders, cells, &[], opening, &mut state));
            assert!(state.iter().all(|&byte| byte == UNTOUCHED));
            rule
        };
        assert_eq!(is_closed(&[0], &cells, &[]), Ok(1));
        assert_eq!(open_closed(&[0], &cells, &[], &good, &mut [UNTOUCHED; 2_624]), Ok(0));
        cells[3] = 19;
        assert_eq!(is_closed(&[0], &cells, &[]), Ok(0));
        assert_eq!(refused(&[0], &cells, &good), 14);
        assert_eq!(refused(&[0], &cells, &[0; OPENING_BYTES]), 10);
        assert_eq!(refused(&[], &cells, &[0; OPENING_BYTES]), 9);
        for (orders, cells, samples) in [
            (0, 10_240, 0),
            (256, 0, 0),
            (1, 10_239, 0),
            (1, 0, 21),
            (1, 101 * 10_240, 0),
        ] {
            assert_eq!(
                number(is_closed(&vec![0; orders], &vec![0; cells], &vec![0; samples])),
                9
            );
        }
    }

    #[test]
    fn tables_of_other_sizes_are_rule_6() {
        let mut tables = [vec![UNTOUCHED; 2], vec![UNTOUCHED; 20], vec![UNTOUCHED; 10_240]];
        let mut opening = [UNTOUCHED; OPENING_BYTES];
        let [orders, samples, cells] = &mut tables;
        assert_eq!(number(read(WORKED, 60_000, orders, samples, cells, &mut opening)), 6);
        assert!(tables.iter().flatten().chain(&opening).all(|&byte| byte == UNTOUCHED));
    }

    #[test]
    fn records_and_outputs_of_other_sizes_are_rule_13() {
        for (record, room) in [(535, 64), (537, 64), (536, 31), (0, 0)] {
            let mut out = vec![UNTOUCHED; room];
            assert_eq!(number(strikes(&vec![0; record], &mut out)), 13);
            assert_eq!(number(line(&vec![0; record], &mut out)), 13);
            assert!(out.iter().all(|&byte| byte == UNTOUCHED));
        }
        assert_eq!(number(line(&[0; 536], &mut [0; 63])), 13);
        assert_eq!(strikes(&[0; 536], &mut [0; 32]), Ok(0));
    }

    /// What a step is refused by, which leaves the registers as they were.
    fn refused_step(registers: &[u8], command: u32, record: &[u8]) -> u8 {
        let mut lent = registers.to_vec();
        let rule = number(head_step(&mut lent, command, record));
        assert_eq!(lent, registers);
        rule
    }

    /// Registers with UNTOUCHED where any byte may stand, and this status.
    fn registers(status: u8) -> [u8; 16] {
        let mut registers = [UNTOUCHED; 16];
        registers[1..4].copy_from_slice(&[status, 0, 0]);
        registers
    }

    #[test]
    fn a_command_above_255_is_told_first() {
        for command in [256, 257, 258, 259, 65_537, 1 << 24 | 1, u32::MAX] {
            for status in [0, 1, 0x83, 4] {
                assert_eq!(refused_step(&registers(status), command, &[0; 536]), 255);
            }
            assert_eq!(refused_step(&[], command, &[]), 255);
        }
    }

    #[test]
    fn broken_registers_are_rule_15_and_then_records_of_a_load_13() {
        for command in [0, 1, 2, 3, 255] {
            for length in [0, 1, 15, 17, 536] {
                assert_eq!(refused_step(&vec![0; length], command, &[0; 536]), 15);
                assert_eq!(refused_step(&vec![0; length], command, &[]), 15);
            }
            for bit in 2..7 {
                assert_eq!(refused_step(&registers(1 << bit), command, &[]), 15);
            }
        }
        for length in [0, 20, 535, 537] {
            for status in [0, 1, 2, 3, 0x80, 0x81, 0x82, 0x83] {
                let record = vec![0; length];
                assert_eq!(refused_step(&registers(status), 1, &record), 13);
                for command in [0, 2, 3, 4, 255] {
                    assert_eq!(head_step(&mut registers(status), command, &record), Ok(0));
                }
            }
        }
    }

    /// Both calls refuse so many records in so many bytes, and leave the output as it was.
    fn refused_columns(m: u32, input: usize, room: usize) {
        for call in [store, restore] {
            let mut out = vec![UNTOUCHED; room];
            assert_eq!(number(call(&vec![1; input], m, &mut out)), 16, "{m}, {input}, {room}");
            assert!(out.iter().all(|&byte| byte == UNTOUCHED));
        }
    }

    #[test]
    fn records_and_columns_of_other_sizes_are_rule_16() {
        for m in [1, 2, 3] {
            let right = m as usize * 536;
            for other in [0, 536 * 4, right - 536, right - 1, right + 1, right + 536] {
                refused_columns(m, right, other);
                refused_columns(m, other, right);
                refused_columns(m, other, other);
            }
        }
        for m in [0, 2, 65_535] {
            refused_columns(m, 536, 536);
        }
    }

    #[test]
    fn a_number_of_records_out_of_its_span_is_rule_16_whatever_the_lengths() {
        for m in [0, 65_536] {
            refused_columns(m, 0, 0);
            refused_columns(m, m as usize * 536, m as usize * 536);
        }
        // As 16 bits these numbers are 1, and as 32 bits 536 times the second is 536.
        for m in [65_537, (1 << 29) + 1, u32::MAX] {
            refused_columns(m, 536, 536);
        }
    }

    #[test]
    fn all_bytes_are_written_where_columns_are_taken() {
        for call in [store, restore] {
            let mut out = [UNTOUCHED; 2 * 536];
            assert_eq!(call(&[0; 2 * 536], 2, &mut out), Ok(0));
            assert_eq!(out, [0; 2 * 536]);
        }
    }

    #[test]
    fn bytes_behind_strikes_and_line_stay() {
        let mut record = [0; 536];
        record[16] = 0b110;
        // The frequency of channel 1 is above 0, which channel 2 has.
        record[24 + 16 + 3] = 0x46;
        let mut out = [UNTOUCHED; 70];
        assert_eq!(strikes(&record, &mut out), Ok(2));
        assert_eq!(out[..2], [2, 1]);
        assert_eq!(out[2..32], [0; 30]);
        assert!(out[32..].iter().all(|&byte| byte == UNTOUCHED));
        let mut out = [UNTOUCHED; 70];
        assert_eq!(line(&record, &mut out), Ok(18));
        assert_eq!(&out[..18], b"0,0,0,0,0,0,0,0,2\n");
        assert!(out[18..].iter().all(|&byte| byte == UNTOUCHED));
    }
}
