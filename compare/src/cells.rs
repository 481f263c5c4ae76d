//! Every command with every info, alone in its row and with others, on a spread of states.

use crate::both::Both;
use oracle::calls::Call;
use oracle::generate::{self, Purpose};
use oracle::random::Random;
use oracle::tune::{CELL, CHANNELS, EMPTY_CELL, PATTERN_BYTES, ROW_BYTES, ROWS, Tune};

/// Commands 0 to 30, and one that is far out.
const COMMANDS: u64 = 32;
const INFOS: usize = 256;

/// Each cell from one state in a short run, from more with the rows.
pub fn compare(seed: u64, rows: u64) -> Result<String, String> {
    let mut both = Both::default();
    for round in 0..(rows / 125_000).clamp(1, 32) {
        for command in 0..COMMANDS {
            let number = seed + round * COMMANDS + command;
            let random = &mut Random::new(number);
            for tune in [alone(random, number), together(random, number)] {
                each_row(&mut both, random, &tune).map_err(|why| format!("seed {number}: {why}"))?;
            }
            let tune = generate::tune(random, Purpose::Visits, number);
            anywhere(&mut both, random, &tune).map_err(|why| format!("seed {number}: {why}"))?;
        }
    }
    let calls = both.calls;
    Ok(format!(
        "{COMMANDS} commands with {INFOS} infos, alone and together with all others in one row: {calls} calls"
    ))
}

/// A cell with a note, an instrument and a volume now and then.
fn cell(random: &mut Random, command: u8, info: usize) -> [u8; CELL] {
    let (note, instrument, volume) = (random.byte(), random.between(1, 16), random.byte());
    [
        random.weighted(&[(3, 255), (2, 0x40), (1, 254), (2, note)]),
        random.weighted(&[(3, 0), (2, 1), (2, instrument)]),
        random.weighted(&[(3, 255), (1, 64), (1, 0), (1, volume)]),
        command,
        info as u8,
    ]
}

/// The n-th of the commands.
fn command(n: u64) -> u8 {
    let command = (n % COMMANDS) as u8;
    if command == 31 { 255 } else { command }
}

/// A tune whose row n of 256 has info n in every channel, and each command in one; the seed tells which has command 0.
fn together(random: &mut Random, seed: u64) -> Tune {
    let mut tune = generate::tune(random, Purpose::Visits, seed);
    tune.orders = (0..(INFOS / ROWS) as u8).collect();
    tune.cells = tune
        .cells
        .into_iter()
        .cycle()
        .take(INFOS / ROWS * PATTERN_BYTES)
        .collect();
    for (info, row) in tune.cells.chunks_exact_mut(ROW_BYTES).enumerate() {
        for (cell, n) in row.chunks_exact_mut(CELL).zip(seed..) {
            (cell[3], cell[4]) = (command(n), info as u8);
        }
    }
    tune
}

/// A tune whose row n of 256 has info n, with the seed's command in one channel, the others empty.
fn alone(random: &mut Random, seed: u64) -> Tune {
    let mut tune = generate::tune(random, Purpose::Visits, seed);
    tune.orders = (0..(INFOS / ROWS) as u8).collect();
    tune.cells = EMPTY_CELL.repeat(INFOS / ROWS * PATTERN_BYTES / CELL);
    for (info, row) in tune.cells.chunks_exact_mut(ROW_BYTES).enumerate() {
        let channel = random.index(CHANNELS);
        row[channel * CELL..][..CELL].copy_from_slice(&cell(random, command(seed), info));
    }
    tune
}

/// Each row once, from an odd state of its own, and the row behind it.
fn each_row(both: &mut Both, random: &mut Random, tune: &Tune) -> Result<(), String> {
    let mut call = Call::section(tune, Vec::new(), 2, 7);
    for info in 0..INFOS {
        let mut from = generate::odd_state(random, tune);
        (from.order_index, from.row) = ((info / ROWS) as u8, (info % ROWS) as u8);
        from.replaying_for_pattern_delay = false;
        call.slots[3] = from.encode();
        both.same(&call).map_err(|why| format!("info {info}: {why}"))?;
    }
    Ok(())
}

/// Rows of any cells, from odd states.
fn anywhere(both: &mut Both, random: &mut Random, tune: &Tune) -> Result<(), String> {
    let mut call = Call::section(tune, Vec::new(), 1, 0);
    for _ in 0..INFOS / 4 {
        call.slots[3] = generate::odd_bytes(random, tune);
        both.same(&call)?;
    }
    Ok(())
}
