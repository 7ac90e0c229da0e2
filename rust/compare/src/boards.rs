//! Random board records that are valid.

pub mod heaps;

use crate::random::Random;
use interface::*;

pub fn valid(random: &mut Random) -> Board {
    let mut line = [0; 256];
    line.copy_from_slice(&random.bytes(256));
    let display = display(random);
    let heap = heaps::heap(random, &display.region);
    Board {
        facts: facts(random),
        line,
        devices: std::array::from_fn(|_| Device { state: state(random), timing: random.number() }),
        clocks: std::array::from_fn(|_| clock(random)),
        voltages: std::array::from_fn(|_| voltage(random)),
        temperature: Temperature { current: random.number(), max: random.number() },
        display,
        heap,
        blocks: heaps::blocks(random, &heap),
    }
}

fn facts(random: &mut Random) -> Facts {
    let mut mac = [0; 6];
    mac.copy_from_slice(&random.bytes(6));
    let longest = random.pick(&[0, 1, 3, 20, 255, 256]);
    Facts {
        firmware: random.word(),
        model: random.word(),
        revision: random.word(),
        mac,
        serial: random.next(),
        arm: Span { base: random.word(), size: random.word() },
        vc: Span { base: random.word(), size: random.word() },
        dma: random.below(0x1_0000),
        characters: if random.one_in(2) { longest } else { random.below(longest + 1) },
    }
}

fn state(random: &mut Random) -> State {
    let exists = !random.one_in(3);
    State { exists, on: exists && random.one_in(2) }
}

/// Three numbers up to the most in rising order, now and then equal.
fn rising(random: &mut Random, most: u32) -> [u32; 3] {
    let mut three = [0; 3].map(|_| match random.number() {
        number if number <= most => number,
        number => number % most,
    });
    if random.one_in(8) {
        three[0] = most;
    }
    if random.one_in(6) {
        three[1] = three[0];
    }
    if random.one_in(6) {
        three[2] = three[1];
    }
    three.sort_unstable();
    three
}

fn clock(random: &mut Random) -> Clock {
    let state = state(random);
    let [min, rate, max] = rising(random, u32::MAX);
    if state.exists {
        Clock { state, rate, min, max }
    } else {
        Clock { state, rate: random.number(), min: random.number(), max: random.number() }
    }
}

fn voltage(random: &mut Random) -> Voltage {
    let valid = !random.one_in(3);
    let most = random.pick(&[10_000, 2_000, 1_300]);
    let [min, value, max] = rising(random, most);
    if valid {
        Voltage { valid, value, min, max }
    } else {
        Voltage { valid, value: random.number(), min: random.number(), max: random.number() }
    }
}

pub fn side(random: &mut Random) -> u32 {
    match random.below(4) {
        0 => random.pick(&[1, 2, 31, 32, 33, 480, 640, 641, 800, 4_095, 4_096]),
        1 => random.between(1, 4_096),
        _ => random.between(1, 64),
    }
}

fn size(random: &mut Random) -> Size {
    Size { width: side(random), height: side(random) }
}

/// The last offset on an axis that is supported.
pub fn last_offset(physical: u32, logical: u32) -> u32 {
    logical.saturating_sub(physical)
}

fn offset(random: &mut Random, physical: u32, logical: u32) -> u32 {
    let last = last_offset(physical, logical);
    match random.below(3) {
        0 => 0,
        1 => last,
        _ => random.between(0, last),
    }
}

fn settings(random: &mut Random) -> Settings {
    let physical = size(random);
    let logical = size(random);
    Settings {
        physical,
        logical,
        offset: Offset {
            x: offset(random, physical.width, logical.width),
            y: offset(random, physical.height, logical.height),
        },
        depth: random.pick(&[8, 16, 24, 32]),
        order: random.below(2),
        alpha: random.below(3),
    }
}

/// Bytes from one row to the next, of settings that are supported.
fn pitch(settings: &Settings) -> u32 {
    (settings.logical.width * settings.depth / 8).next_multiple_of(32)
}

/// Bytes that a buffer of these settings takes.
pub fn need(settings: &Settings) -> u32 {
    pitch(settings) * settings.logical.height
}

fn display(random: &mut Random) -> Display {
    let settings = settings(random);
    let need = need(&settings);
    let power = 1 << random.between(4, 16);
    let spare = match random.below(7) {
        0 => 0,
        1 => random.below(64),
        2 => random.below(power),
        3 | 4 => need * random.below(4),
        // One row more just fits, or just does not.
        5 => pitch(&settings) + random.below(3) - 1,
        _ => 8_388_608,
    };
    let size = need + spare;
    let highest = u32::MAX - size;
    let base = match random.below(6) {
        0 => 0,
        1 => highest - random.pick(&[0, 0, 1, 2]),
        2 => random.between(0, highest),
        _ => random.between(0, highest) >> random.pick(&[0, 8, 12, 20]) << random.pick(&[4, 8, 12]),
    };
    let region = Span { base: base.min(highest), size };
    let standing = !random.one_in(2);
    let buffer = if standing { buffer(random, region, &settings) } else { Span::NONE };
    Display { region, settings, buffer }
}

/// A buffer inside the region.
fn buffer(random: &mut Random, region: Span, settings: &Settings) -> Span {
    let need = need(settings);
    let spare = region.size - need;
    let extra = match random.below(6) {
        0..=2 => 0,
        3 => (pitch(settings) + random.below(3) - 1).min(spare),
        _ => random.between(0, spare),
    };
    let shift = if random.one_in(2) { 0 } else { random.between(0, spare - extra) };
    Span { base: region.base + shift, size: need + extra }
}
