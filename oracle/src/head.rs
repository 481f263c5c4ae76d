//! The punch head from 02's words: what a step makes of its sixteen registers.

pub const REGISTERS_BYTES: usize = 16;
/// Where the registers have the status, the mask and the position.
pub const STATUS: usize = 1;
pub const MASK: usize = 4;
pub const POSITION: usize = 8;

/// 02: '0 command (1 load, 2 strike, 3 clear),
pub const LOAD: u8 = 1;
pub const STRIKE: u8 = 2;
pub const CLEAR: u8 = 3;

/// 1 status (bit 0 loaded, bit 1 late, bit 7 interrupt)'
pub const LOADED: u8 = 1;
pub const LATE: u8 = 1 << 1;
pub const INTERRUPT: u8 = 1 << 7;

/// 02: 'a step is handed a command and a record, keeps the command in byte 0, then acts.'
pub fn step(registers: &mut [u8], command: u8, record: &[u8]) {
    registers[0] = command;
    let loaded = registers[STATUS] & LOADED != 0;
    match command {
        LOAD if loaded => registers[STATUS] |= LATE,
        LOAD => load(registers, record),
        STRIKE if loaded => {
            registers[STATUS] &= !LOADED;
            registers[STATUS] |= INTERRUPT;
        }
        CLEAR => registers[STATUS] &= !(LATE | INTERRUPT),
        _ => {}
    }
}

/// 02: 'takes a record's mask and start and sets loaded'.
fn load(registers: &mut [u8], record: &[u8]) {
    registers[MASK..MASK + 4].copy_from_slice(&record[16..20]);
    registers[POSITION..POSITION + 8].copy_from_slice(&record[8..16]);
    registers[STATUS] |= LOADED;
}
