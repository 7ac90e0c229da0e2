//! Random request words that a tag's id makes sense of.

pub mod memory;

use crate::boards::{last_offset, side};
use crate::known::{MEMORY, SET_CLOCK_RATE};
use crate::memory::Memory;
use crate::random::Random;
use crate::walk::put_word;
use interface::{Board, Settings};

/// Writes them over a value of random bytes.
pub fn fill(random: &mut Random, board: &Board, held: &Memory, id: u32, value: &mut [u8]) {
    if random.one_in(40) || value.len() < 4 {
        return;
    }
    if MEMORY.iter().any(|known| known.id == id) {
        return memory::put(memory::words(random, held, id), value);
    }
    let (first, second) = match id >> 16 {
        0x0002 => (item(random, 12), state(random)),
        0x0003 => match id & 0xFFFF {
            0x0003 | 0x0005 | 0x0008 | 0x8003 => voltage_request(random, board),
            0x0006 | 0x000A => (if random.one_in(4) { random.number() } else { 0 }, 0),
            _ => clock_request(random, board, id),
        },
        0x0004 => group_request(random, &board.display.settings, id & 0x0FFF),
        _ => return,
    };
    put_word(value, 0, first);
    if value.len() >= 8 && random.below(20) > 0 {
        put_word(value, 4, second);
    }
    // The real interface gives a set rate a third word, which is 0 or 1.
    if value.len() >= 12 && random.one_in(if id == SET_CLOCK_RATE { 2 } else { 6 }) {
        put_word(value, 8, random.below(2));
    }
}

fn item(random: &mut Random, most: u32) -> u32 {
    let item = random.below(most + 1);
    match random.below(40) {
        0 => random.number(),
        1 => random.with_high_bit(item, 4),
        _ => item,
    }
}

fn state(random: &mut Random) -> u32 {
    if random.one_in(5) {
        random.word()
    } else {
        random.below(4)
    }
}

fn clock_request(random: &mut Random, board: &Board, id: u32) -> (u32, u32) {
    let item = item(random, 15);
    if id & 0x7FFF == 1 {
        return (item, state(random));
    }
    let clock = board.clocks[(item.wrapping_sub(1) as usize).min(13)];
    (item, near(random, clock.min, clock.rate, clock.max))
}

fn voltage_request(random: &mut Random, board: &Board) -> (u32, u32) {
    let item = item(random, 5);
    let voltage = board.voltages[(item.wrapping_sub(1) as usize).min(3)];
    (item, near(random, voltage.min, voltage.value, voltage.max))
}

fn near(random: &mut Random, min: u32, now: u32, max: u32) -> u32 {
    let by = random.below(3).wrapping_sub(1);
    match random.below(5) {
        0 => min.wrapping_add(by),
        1 => max.wrapping_add(by),
        2 => now.wrapping_add(by),
        3 if min <= max => random.between(min, max),
        _ => random.number(),
    }
}

fn group_request(random: &mut Random, settings: &Settings, property: u32) -> (u32, u32) {
    let rare = random.one_in(12);
    match property {
        3 | 4 => {
            let now = if property == 3 { settings.physical } else { settings.logical };
            (side_near(random, now.width), side_near(random, now.height))
        }
        9 => {
            let Settings { physical, logical, .. } = *settings;
            let x = offset_near(random, physical.width, logical.width);
            (x, offset_near(random, physical.height, logical.height))
        }
        5 if rare => (random.pick(&[0, 1, 7, 9, 12, 15, 25, 33, 40, 64]), 0),
        5 => (perhaps_high(random, settings.depth, &[8, 16, 24, 32]), 0),
        6 if rare => (random.pick(&[2, 3, u32::MAX]), 0),
        6 => (perhaps_high(random, settings.order, &[0, 1]), 0),
        7 if rare => (random.pick(&[3, 4, u32::MAX]), 0),
        7 => (perhaps_high(random, settings.alpha, &[0, 1, 2]), 0),
        1 => (alignment(random), random.word()),
        _ => (random.number(), random.number()),
    }
}

/// The setting as it is or another supported one, now and then with a high bit.
fn perhaps_high(random: &mut Random, now: u32, supported: &[u32]) -> u32 {
    let setting = if random.one_in(4) { now } else { random.pick(supported) };
    if random.one_in(40) {
        random.with_high_bit(setting, 6)
    } else {
        setting
    }
}

fn side_near(random: &mut Random, now: u32) -> u32 {
    match random.below(48) {
        0 => random.pick(&[0, 4_097, 4_098, u32::MAX]),
        1 => random.with_high_bit(now, 13),
        2..=8 => side(random),
        9..=16 => now.wrapping_add(random.below(3)).wrapping_sub(1),
        17..=32 => random.between(1, 40),
        _ => now,
    }
}

fn offset_near(random: &mut Random, physical: u32, logical: u32) -> u32 {
    let last = last_offset(physical, logical);
    match random.below(24) {
        0 => random.number(),
        1 => random.with_high_bit(0, 12),
        2..=4 => past_offset(random, physical, logical),
        5..=8 => last,
        9..=13 => random.between(0, last),
        14..=15 => random.below(8),
        _ => 0,
    }
}

/// An offset on an axis that is not supported.
pub fn past_offset(random: &mut Random, physical: u32, logical: u32) -> u32 {
    let past = last_offset(physical, logical).saturating_add(1);
    match random.below(5) {
        0 => past,
        1 => past.wrapping_add(random.below(physical)),
        2 => logical.saturating_sub(random.below(2)).max(past),
        // The sum with the physical side is small once its high bits are lost.
        3 => random.below(physical.min(logical)).wrapping_sub(physical),
        _ => random.between(past, u32::MAX),
    }
}

fn alignment(random: &mut Random) -> u32 {
    let power = 1 << random.below(18);
    match random.below(8) {
        0 => random.pick(&[0, 24, 3, 5, 0x8000_0001, u32::MAX]),
        1..=2 => 1 << random.below(32),
        3 => random.number(),
        4 => random.with_high_bit(power, 0),
        _ => power,
    }
}
