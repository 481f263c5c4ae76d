//! Patterns: busy and sparse rows of free cells, and path effects that meet on a row. Commands are named by letters.

use super::tunes::Style;
use crate::player::cmd::*;
use crate::random::Random;
use crate::tune::{CELL, CHANNELS, EMPTY_CELL, ROWS};

fn command_of(letter: u8) -> u8 {
    letter - b'@'
}

pub fn cells(random: &mut Random, style: &Style) -> Vec<u8> {
    let rows = 0..style.patterns * ROWS;
    rows.flat_map(|at| row(random, style, at % ROWS)).collect()
}

fn row(random: &mut Random, style: &Style, at: usize) -> Vec<u8> {
    let filled = random.one(&[0, 10, 50, 100]);
    let mut out = EMPTY_CELL.repeat(CHANNELS);
    for cell in out.chunks_exact_mut(CELL) {
        if random.chance(filled) {
            cell.copy_from_slice(&free_cell(random, style));
        }
    }
    if !random.chance(style.path) {
        return out;
    }
    for _ in 0..random.between(1, 4) {
        let command = command_of(random.one(b"AABCSSSSSST"));
        // S shares some channels, to find what it recalls. A walk's patterns jump late, lest it go round in a few rows.
        let (info, channel) = match command {
            S_EXTENDED => (special(random) * random.between(0, 1), 24 + random.index(8)),
            _ => (info(random, command, style.orders), random.index(24)),
        };
        if !(style.walks && at < 20 && matches!(command, B_POS_JUMP | C_PAT_BREAK)) {
            out[channel * CELL + 3..][..2].copy_from_slice(&[command, info]);
        }
    }
    out
}

/// Path effects stand in few of them, so that a walk gets on.
fn free_cell(random: &mut Random, style: &Style) -> [u8; CELL] {
    let (known, often, any) = (random.between(0, 30), command_of(random.one(b"DEFGLOS")), random.byte());
    let command = random.weighted(&[(12, known), (6, often), (2, 0), (1, 255), (1, any)]);
    let info = info(random, command, style.orders);
    let stays = random.chance(style.free);
    let (command, info) = match (command, info >> 4) {
        (B_POS_JUMP | C_PAT_BREAK, _) if !stays => (V_GLOBAL_VOL, info),
        (S_EXTENDED, 0xB | 0xE) if !stays => (command, 0xD0 | info & 15),
        _ => (command, info),
    };
    let (level, any) = (random.between(0, 64), random.byte());
    let volume = random.weighted(&[(12, 255), (6, level), (1, 64), (1, 65), (1, any)]);
    [note(random), instrument(random, style), volume, command, info]
}

/// Notes of all octaves, no note, cuts, and bytes that are no note of the table.
fn note(random: &mut Random) -> u8 {
    let (usual, any) = (random.between(0, 8) << 4 | random.between(0, 11), random.byte());
    random.weighted(&[(9, 255), (14, usual), (2, 0xFE), (1, 0), (2, any)])
}

fn instrument(random: &mut Random, style: &Style) -> u8 {
    let known = (1 + random.index(style.samples.max(1))) as u8;
    let next = (style.samples + 1) as u8;
    random.weighted(&[(8, 0), (14, known), (1, next), (1, 100), (1, 255)])
}

/// An info at an edge of what its command does, or any; `orders` is how many places a B may name.
fn info(random: &mut Random, command: u8, orders: usize) -> u8 {
    let any = random.byte();
    let edge = match command {
        A_SET_SPEED => random.one(&[1 + any % 16, 3, 6, 255]),
        B_POS_JUMP => random.index(orders + 2).min(255) as u8,
        C_PAT_BREAK => random.one(&[0x10, 0x3F, 0x5D, 0x5E, 0x63, 0x64, any % 80, any % 80]),
        D_VOL_SLIDE => random.one(&[0xFF, 0xF0, 0x0F, 0xF0 | any, any | 0x0F, any & 0xF0, any & 15, any]),
        E_SLIDE_DOWN | F_SLIDE_UP => 0xE0 | any,
        T_SET_TEMPO => random.one(&[31, 32, 255, any | 0x20]),
        V_GLOBAL_VOL => random.one(&[64, 65, any % 65]),
        X_SET_PAN => random.one(&[0x40, 0x80, 0x81, 0xFF, any % 129]),
        _ => any,
    };
    random.weighted(&[(2, 0), (2, any), (6, edge)])
}

/// SBx or SEx, often with 0 or 1.
pub fn special(random: &mut Random) -> u8 {
    let low = random.between(0, 15);
    random.one(&[0xB0, 0xE0]) | random.weighted(&[(2, 0), (3, 1), (2, 2), (1, low)])
}
