//! Random heaps beside a region, and blocks in them.

use crate::random::Random;
use interface::{Block, Span};

/// Where a heap may lie: below the region, and behind it.
fn rooms(region: &Span) -> [Span; 2] {
    let behind = region.base.saturating_add(region.size);
    let below = Span { base: 1, size: region.base.saturating_sub(1) };
    [below, Span { base: behind, size: u32::MAX - behind }]
}

pub fn heap(random: &mut Random, region: &Span) -> Span {
    if random.one_in(10) {
        return empty(random, region);
    }
    let room = random.pick(&rooms(region));
    let size = size(random).min(room.size);
    part(random, room, size)
}

/// A heap of this size in the larger room beside the region.
pub fn roomy(random: &mut Random, region: &Span, size: u32) -> Span {
    let [below, behind] = rooms(region);
    let room = if below.size > behind.size { below } else { behind };
    part(random, room, size.min(room.size))
}

/// A heap without bytes: anywhere, and in the region.
fn empty(random: &mut Random, region: &Span) -> Span {
    let base = match random.below(5) {
        0 => random.number(),
        1 => random.pick(&[region.base, u32::MAX, 1]),
        _ => region.base.saturating_add(random.below(region.size)),
    };
    Span { base: base.max(1), size: 0 }
}

/// Mostly small, seldom all that there is.
pub fn size(random: &mut Random) -> u32 {
    match random.below(8) {
        0 => u32::MAX,
        1 => random.number().max(1),
        2 => 0x0040_0000,
        3 => random.between(1, 40),
        4..=5 => random.between(32, 400),
        _ => random.between(400, 20_000),
    }
}

/// So many bytes of a room: at either end of it, about the address 2^31, or anywhere.
fn part(random: &mut Random, room: Span, size: u32) -> Span {
    let last = room.base + (room.size - size);
    let any = random.between(room.base, last);
    let bits = random.pick(&[4, 8, 12, 20]);
    let base = match random.below(10) {
        0..=1 => room.base,
        2..=3 => last,
        4 => (1 << 31) - random.below(size.min(1 << 16)),
        5..=6 => any,
        _ => any >> bits << bits,
    };
    Span { base: base.clamp(room.base, last), size }
}

/// Blocks in a heap: none, some, or in all places.
pub fn blocks(random: &mut Random, heap: &Span) -> [Block; 32] {
    let count = match random.below(8) {
        0..=1 => 0,
        2 => 31,
        3 => 32,
        4 => random.between(7, 32),
        _ => random.between(1, 6),
    };
    some_blocks(random, heap, count)
}

/// So many blocks, where the heap has as many bytes, in places of any order.
pub fn some_blocks(random: &mut Random, heap: &Span, count: u32) -> [Block; 32] {
    let mut blocks = [Block::FREE; 32];
    if random.one_in(5) {
        blocks = blocks.map(|_| free(random, heap));
    }
    let end = heap.base.saturating_add(heap.size);
    let (step, first) = match random.below(3) {
        0 => (1, 0),
        _ => (2 * random.below(16) + 1, random.below(32)),
    };
    let mut at = heap.base;
    let count = count.min(end - at);
    for index in 0..count {
        let room = Span { base: at, size: (end - at) / (count - index) };
        let block = block(random, room);
        at = block.base + block.size;
        // The step is odd, so that no place comes twice.
        blocks[((first + index * step) % 32) as usize] = block;
    }
    blocks
}

/// A free place, whose numbers say nothing.
fn free(random: &mut Random, heap: &Span) -> Block {
    let Span { base, size } = if random.one_in(2) {
        *heap
    } else {
        Span { base: random.number(), size: random.number() }
    };
    let alignment = if random.one_in(2) { 1 } else { random.number() };
    let locked = random.one_in(2);
    Block { taken: false, locked, base, size, alignment, flags: random.word() }
}

/// A block in a room that is not empty, often at its very start.
fn block(random: &mut Random, room: Span) -> Block {
    let last = room.base + (room.size - 1);
    let base = match random.below(8) {
        0..=3 => room.base,
        4 => random.between(room.base, last),
        5 => random.between(room.base, last.min(room.base.saturating_add(40))),
        _ => aligned(random, room.base).min(last),
    };
    let most = room.size - (base - room.base);
    let size = match random.below(6) {
        0..=1 => most,
        2 => 1,
        3 => random.between(1, most),
        _ => random.between(1, most.min(64)),
    };
    let locked = random.one_in(3);
    Block {
        taken: true,
        locked,
        base,
        size,
        alignment: divisor(random, base),
        flags: random.word(),
    }
}

/// The address or one above it that is a multiple of a power of two.
fn aligned(random: &mut Random, address: u32) -> u32 {
    let power = 1u32 << if random.one_in(4) { random.below(32) } else { random.below(10) };
    address.checked_next_multiple_of(power).unwrap_or(address)
}

/// A power of two that divides the number, often the largest.
fn divisor(random: &mut Random, number: u32) -> u32 {
    let most = number.trailing_zeros().min(31);
    1 << if random.one_in(2) { most } else { random.between(0, most) }
}
