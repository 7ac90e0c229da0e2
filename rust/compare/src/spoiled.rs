//! Random board records with a rule broken.

mod memory;

use crate::boards::need;
use crate::fields;
use crate::random::Random;
use crate::requests::past_offset;
use interface::*;

/// Breaks a rule of a valid record, or changes fields at random.
pub fn spoil(random: &mut Random, board: &mut Board) {
    match random.below(12) {
        0 => spoil_facts(random, &mut board.facts),
        1 | 2 => spoil_items(random, board),
        3 | 4 => spoil_settings(random, &mut board.display),
        5 | 6 => {
            spoil_buffer(random, &mut board.display);
            memory::clear_region(random, board);
        }
        7..=10 => memory::spoil(random, board),
        _ => {
            let count = fields::values(board).len() as u32;
            for _ in 0..=random.below(3) {
                let value = random.number().into();
                fields::set(board, random.below(count) as usize, value);
            }
        }
    }
}

fn spoil_facts(random: &mut Random, facts: &mut Facts) {
    if random.one_in(2) {
        facts.characters = random.pick(&[257, 258, 512, 0x1_0000, 0x8000_0000, u32::MAX]);
    } else {
        facts.dma |= 1 << random.between(16, 31);
    }
}

fn spoil_items(random: &mut Random, board: &mut Board) {
    let alone = State { exists: false, on: true };
    let clock = &mut board.clocks[random.below(14) as usize];
    let voltage = &mut board.voltages[random.below(4) as usize];
    let middle = random.between(1, 9_999);
    let (below, above) = match random.below(4) {
        0 => (middle - 1, middle),
        1 => (0, middle),
        2 => (middle, middle + 1),
        _ => (middle, 10_000),
    };
    match random.below(7) {
        0 => board.devices[random.below(11) as usize].state = alone,
        1 => clock.state = alone,
        2 => {
            let state = State { exists: true, on: true };
            *clock = Clock { state, rate: below, min: above, max: above };
        }
        3 => {
            let state = State { exists: true, on: false };
            *clock = Clock { state, rate: above, min: below, max: below };
        }
        4 => *voltage = Voltage { valid: true, value: below, min: above, max: above },
        5 => *voltage = Voltage { valid: true, value: above, min: below, max: below },
        _ => {
            let max = random.pick(&[10_000, 10_001, 10_002, 0x8000_0000, u32::MAX]);
            *voltage = Voltage { valid: true, value: below, min: below, max };
        }
    }
}

fn spoil_settings(random: &mut Random, display: &mut Display) {
    let settings = &mut display.settings;
    let Settings { physical, logical, .. } = *settings;
    let out = random.pick(&[0, 4_097, 4_098, 0x8000_0000, u32::MAX]);
    match random.below(10) {
        0 => settings.physical.width = out,
        1 => settings.physical.height = out,
        2 => settings.logical.width = out,
        3 => settings.logical.height = out,
        4 => settings.depth = random.pick(&[0, 1, 4, 7, 9, 15, 25, 40, 64, 0x108, 0x8000_0020]),
        5 => settings.order = random.pick(&[2, 3, 0x100, u32::MAX]),
        6 => settings.alpha = random.pick(&[3, 4, 0x102, u32::MAX]),
        7 => settings.offset.x = past_offset(random, physical.width, logical.width),
        8 => settings.offset.y = past_offset(random, physical.height, logical.height),
        _ => display.region.size = need(settings) - random.between(1, 3),
    }
}

fn spoil_buffer(random: &mut Random, display: &mut Display) {
    let Display { region, settings, buffer } = display;
    let need = need(settings);
    match random.below(7) {
        0 => *buffer = Span { base: region.base.wrapping_sub(random.between(1, 40)), size: need },
        1 => {
            let shift = region.size - need + random.below(3);
            *buffer = Span { base: region.base.wrapping_add(shift), size: need };
        }
        2 => *buffer = Span { base: region.base, size: need - random.between(1, 4) },
        3 => *buffer = Span { base: random.number(), size: 0 },
        4 => *buffer = Span { base: region.base, size: region.size.wrapping_add(random.below(4)) },
        5 => *buffer = Span { base: random.number(), size: random.number() },
        _ => region.base = (u32::MAX - region.size).wrapping_add(random.between(1, 3)),
    }
}
