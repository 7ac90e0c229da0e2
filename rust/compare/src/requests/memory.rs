//! Random request words of the tags of memory.

use crate::known::ALLOCATE_MEMORY;
use crate::memory::{align, Memory, Words};
use crate::random::Random;
use crate::walk::put_word;

/// Writes them over a value, as far as it holds them.
pub fn put(words: Words, value: &mut [u8]) {
    for (index, word) in words.into_iter().enumerate() {
        if 4 * index + 4 <= value.len() {
            put_word(value, 4 * index, word);
        }
    }
}

/// The words of a request about the memory as it is.
pub fn words(random: &mut Random, memory: &Memory, id: u32) -> Words {
    if id != ALLOCATE_MEMORY {
        return [handle(random, memory), random.word(), random.word()];
    }
    let alignment = alignment(random);
    [size(random, memory, alignment), alignment, flags(random)]
}

/// The words of an allocate that small heaps have room for often.
pub fn small(random: &mut Random, memory: &Memory) -> Words {
    let most = (memory.heap.size / 40).clamp(1, 5_000);
    [random.between(1, most), 1 << random.below(4), flags(random)]
}

fn flags(random: &mut Random) -> u32 {
    if random.one_in(2) {
        random.below(0x80)
    } else {
        random.word()
    }
}

/// Most often a taken place's.
fn handle(random: &mut Random, memory: &Memory) -> u32 {
    let taken = !random.one_in(5);
    let handle = place(random, memory, taken).map_or(random.between(1, 32), |place| place + 1);
    match random.below(20) {
        0 => random.pick(&[0, 33, 34, u32::MAX]),
        1 => random.with_high_bit(handle, 5),
        2 => random.below(34),
        3 => random.number(),
        _ => handle,
    }
}

/// A place that is taken, or one that is free.
pub fn place(random: &mut Random, memory: &Memory, taken: bool) -> Option<u32> {
    let places = memory.blocks.iter().enumerate().filter(|(_, block)| block.taken == taken);
    let count = places.clone().count() as u32;
    let mut places = places.map(|(place, _)| place as u32);
    places.nth(random.below(count) as usize)
}

/// A size, often about as large as a gap.
fn size(random: &mut Random, memory: &Memory, alignment: u32) -> u32 {
    let by = random.below(3).wrapping_sub(1);
    let heap = memory.heap.size;
    match random.below(20) {
        0 => random.pick(&[0, 0, 1, u32::MAX]),
        1 => heap.wrapping_add(by),
        2 => random.number(),
        3..=8 => filling(random, memory, alignment).wrapping_add(by),
        9..=11 => filling(random, memory, alignment),
        12 => random.between(1, heap.max(1)),
        _ => small(random, memory)[0],
    }
}

/// The bytes of a gap, or those from its first aligned address on.
fn filling(random: &mut Random, memory: &Memory, alignment: u32) -> u32 {
    let gaps = memory.gaps();
    let any = gaps[random.below(gaps.len() as u32) as usize].clone();
    let gap = if any.is_empty() { gaps.into_iter().find(|gap| !gap.is_empty()) } else { Some(any) };
    let Some(gap) = gap else { return 1 };
    let start = if alignment == 0 { gap.start } else { align(gap.start, alignment) };
    let bytes = if start < gap.end { gap.end - start } else { gap.end - gap.start };
    bytes as u32
}

fn alignment(random: &mut Random) -> u32 {
    let power = 1 << random.below(12);
    match random.below(20) {
        0 => random.pick(&[0, 0, 3, 24, 0x8000_0001, u32::MAX]),
        1 => random.with_high_bit(power, 0),
        2..=4 => 1 << random.below(32),
        5 => random.number(),
        6 => 1 << random.between(30, 31),
        7..=10 => 1,
        _ => power,
    }
}
