//! Odd states: bytes that rules 11 and 17 accept, most of them any, with nothing waiting and not ended.

use super::cells::special;
use super::tunes::{rate, transpositions};
use super::{noise, unset};
use crate::card::unit;
use crate::levels::{MOST_PAN, most_volume};
use crate::random::Random;
use crate::rules::MOST_START;
use crate::state::{
    ADLIB, CHANNEL_BYTES, HEAD_BYTES, KEYED, NO_VOICE, PAN, RELEASED, STATE_BYTES, STORED_VOLUME, State, TRANSPOSITION,
    VOLUME,
};
use crate::tune::Tune;

pub fn odd_state(random: &mut Random, tune: &Tune) -> State {
    State::decode(&odd_bytes(random, tune))
}

/// A state said in an unusual way: flags above 1, waveforms above 3, any NaN, noise in bytes that are not read.
pub fn odd_bytes(random: &mut Random, tune: &Tune) -> Vec<u8> {
    let mut out = noise(random, STATE_BYTES);
    let (head, channels) = out.split_at_mut(HEAD_BYTES);
    put_path(random, tune, head);
    put_card(random, head);
    let transpositions = transpositions(random.apart());
    for (part, transposition) in channels.chunks_exact_mut(CHANNEL_BYTES).zip(transpositions) {
        put_channel(random, tune.sample_count() as u8, part);
        part[TRANSPOSITION] = transposition;
    }
    out
}

/// The place, the loop, the hold, the levels, the switches and the S infos.
fn put_path(random: &mut Random, tune: &Tune, head: &mut [u8]) {
    let order = order(random, tune, head[0]);
    let orders = tune.orders.iter().skip(order.into());
    let entered = order.saturating_add(orders.take_while(|&&named| named == 0xFE).count() as u8);
    head[0] = order;
    head[1] = random.weighted(&[(6, head[1] % 64), (1, 63)]);
    head[3] = random.weighted(&[(6, entered), (1, order), (1, entered.saturating_sub(1)), (2, head[3])]);
    head[5] = random.weighted(&[(2, 0), (3, 1), (2, 2), (2, head[5])]);
    head[6] = random.weighted(&[(6, head[6] % 64), (1, 63)]);
    head[7] = random.weighted(&[(6, 0), (2, 1), (2, head[7])]);
    head[9] = 0;
    head[10] = random.weighted(&[(3, 6), (3, head[10].max(1)), (1, 1), (1, 255)]);
    head[11] = random.weighted(&[(3, 125), (3, head[11].max(32)), (1, 32), (1, 255)]);
    head[12] = random.weighted(&[(2, 64), (3, head[12])]);
    unset(random, head, &[(2, 20), (4, 30), (8, 88), (13, 50), (14, 50)]);
    for info in &mut head[32..] {
        let special = special(random);
        *info = random.weighted(&[(4, *info), (3, special), (2, 0xD0 | *info), (1, 0)]);
    }
}

/// The rate, the remainder and the start; now and then as a row is longest.
fn put_card(random: &mut Random, head: &mut [u8]) {
    let longest = random.chance(2);
    if longest {
        head[10..12].copy_from_slice(&[255, 32]);
    }
    let rate = if longest { 100_000 } else { rate(random) };
    let unit = unit(head[11]);
    let below = random.below(unit.into()) as u32;
    let remainder = random.weighted(&[(2, 0), (6, below), (1, 1), (2, unit - 1)]) as u16;
    let start = random.below(MOST_START);
    let start = random.weighted(&[(2, 0), (4, start), (1, MOST_START), (1, MOST_START - 1)]);
    head[16..20].copy_from_slice(&rate.to_le_bytes());
    head[20..22].copy_from_slice(&remainder.to_le_bytes());
    head[24..32].copy_from_slice(&start.to_le_bytes());
}

/// Mostly a place that names a pattern, also the others and past the end.
fn order(random: &mut Random, tune: &Tune, any: u8) -> u8 {
    let length = tune.orders.len();
    let named: Vec<usize> = (0..length).filter(|&at| tune.pattern_at(at).is_some()).collect();
    let (named, place) = (random.one(&named), random.index(length));
    random.weighted(&[(12, named), (5, place), (1, length), (1, any.into())]) as u8
}

fn put_channel(random: &mut Random, samples: u8, part: &mut [u8]) {
    for at in [0, 4] {
        part[at..at + 4].copy_from_slice(&frequency(random).to_le_bytes());
    }
    part[8..16].copy_from_slice(&sample_pos(random).to_le_bytes());
    part[16] = random.weighted(&[(8, part[16] % (samples + 1)), (1, samples + 1), (1, 255)]);
    // Of an AdLib channel; cut below, where the mark is settled.
    let most = most_volume(true);
    part[VOLUME] = random.weighted(&[(5, part[VOLUME] % most), (1, most - 1), (1, 0), (2, most)]);
    let stored = part[STORED_VOLUME];
    part[STORED_VOLUME] = random.weighted(&[(5, stored % 65), (1, 64), (1, 0), (2, stored)]);
    part[PAN] = random.weighted(&[(4, part[PAN] % (MOST_PAN + 1)), (3, MOST_PAN)]);
    part[20] %= 31;
    let usual = random.between(0, 8) << 4 | random.between(0, 11);
    part[24] = random.weighted(&[(5, usual), (2, 0), (1, 0xFE), (1, 0xFF), (2, part[24])]);
    // The tick of a delay.
    part[26] = random.weighted(&[(6, part[26] & 15), (1, part[26]), (1, 0)]);
    part[43] = random.weighted(&[(6, NO_VOICE), (2, KEYED), (2, RELEASED)]);
    let (active, delay, glissando) = ((19, 30), (25, 75), (30, 70));
    unset(random, part, &[active, delay, glissando, (37, 60), (38, 60)]);
    let (muted, frozen, right_bank, adlib) = ((39, 80), (40, 60), (41, 50), (ADLIB, 60));
    unset(random, part, &[muted, frozen, right_bank, adlib]);
    part[VOLUME] = part[VOLUME].min(most_volume(part[ADLIB] != 0));
    for at in 48..75 {
        unset(random, part, &[(at, 25)]);
    }
}

/// The bits of a float that is a number; half of them are usual pitches.
fn frequency(random: &mut Random) -> u32 {
    #[rustfmt::skip]
    const ODD: [f32; 14] = [
        0.0, -0.0, f32::INFINITY, f32::NEG_INFINITY, f32::MAX, f32::MIN, f32::MIN_POSITIVE, -f32::MIN_POSITIVE,
        8_363.0, 16_726.0, 126_703.15, 126_703.16, 1.0, -440.0,
    ];
    let odd = random.one(&ODD).to_bits();
    let usual = (20.0 + random.below(200_000_000) as f32 / 1024.0).to_bits();
    let any = random.number() as u32;
    let finite = if any >> 23 & 0xFF == 0xFF { any ^ 1 << 30 } else { any };
    random.weighted(&[(8, usual), (5, odd), (2, any & 0x807F_FFFF), (1, finite)])
}

/// The bits of a place in a sample, odd ones among them, now and then of no number.
fn sample_pos(random: &mut Random) -> u64 {
    const ODD: [f64; 6] = [0.0, -0.0, f64::INFINITY, f64::NEG_INFINITY, f64::MAX, 5e-324];
    let odd = random.one(&ODD).to_bits();
    let usual = (random.below(1 << 40) as f64 / 4096.0).to_bits();
    let none = 0x7FF0 << 48 | random.number() | 1;
    random.weighted(&[(30, usual), (20, odd), (10, usual | 1 << 63), (1, none)])
}
