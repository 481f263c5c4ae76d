//! Stands in for `powf` in the fine slides: the 64 factors of factors.txt, and where this machine's own `powf` differs.

use crate::player::cmd;
use std::hint::black_box;
use std::sync::LazyLock;

/// The factors' bits, in the order of factors.txt.
static TABLE: LazyLock<Vec<u32>> = LazyLock::new(|| {
    let lines = include_str!("../../factors.txt").lines();
    let lines = lines.filter(|line| !line.starts_with('#'));
    let bits = |line: &str| u32::from_str_radix(line.split(' ').nth(2).expect(line), 16).expect(line);
    lines.map(bits).collect()
});

/// The factor of fine E or F (info 0xE0 up).
pub fn slide_factor(command: u8, info: u8) -> f32 {
    f32::from_bits(TABLE[index(command, info)])
}

/// A factor's place: E before F, 0xF0 up before 0xE0 up, then the low nibble.
pub fn index(command: u8, info: u8) -> usize {
    assert!(info >= 0xE0, "not a fine slide");
    let up = usize::from(command == cmd::F_SLIDE_UP);
    let extra = usize::from(info < 0xF0);
    up * 32 + extra * 16 + usize::from(info & 0x0F)
}

/// Where this machine's `powf` gives others.
pub fn report() -> String {
    let (mut out, mut others) = (String::new(), 0);
    for (command, letter) in [(cmd::E_SLIDE_DOWN, 'E'), (cmd::F_SLIDE_UP, 'F')] {
        for info in 0xE0..=0xFF {
            let (table, here) = (slide_factor(command, info).to_bits(), own(command, info).to_bits());
            if table != here {
                others += 1;
                let index = index(command, info);
                out += &format!("powf: {letter}{info:02X} (entry {index}): table {table:08x}, here {here:08x}\n");
            }
        }
    }
    let count = others.to_string();
    let others = if others == 0 { "none" } else { &count };
    out + &format!("powf: {others} of 64 differ from the table on this machine\n")
}

/// The factor as the original writes it, worked out at run time.
fn own(command: u8, info: u8) -> f32 {
    let amount = black_box((info & 0x0F) as f32);
    let scale = if (info & 0xF0) == 0xE0 { 0.25 } else { 1.0 };
    match command {
        cmd::F_SLIDE_UP => 2.0f32.powf(amount * scale / 768.0),
        _ => 2.0f32.powf(-amount * scale / 768.0),
    }
}
