//! Heaps and blocks with a rule broken, or only just kept.

use crate::boards::heaps;
use crate::memory::Memory;
use crate::random::Random;
use interface::{Block, Board, Span};

pub fn spoil(random: &mut Random, board: &mut Board) {
    // How far past the rule's edge it goes.
    let over = u32::from(random.below(3) > 0);
    if random.one_in(2) {
        board.heap = heap(random, &board.display.region, over);
        board.blocks = heaps::blocks(random, &board.heap);
    } else {
        let size = random.between(64, 4_000);
        board.heap = heaps::roomy(random, &board.display.region, size);
        let count = random.between(2, 32);
        board.blocks = heaps::some_blocks(random, &board.heap, count);
        spoil_block(random, board, over);
    }
}

/// Gives the board another heap, with blocks, where its own lies in the region.
pub fn clear_region(random: &mut Random, board: &mut Board) {
    if board.heap.meets(&board.display.region) {
        board.heap = heaps::heap(random, &board.display.region);
        board.blocks = heaps::blocks(random, &board.heap);
    }
}

fn heap(random: &mut Random, region: &Span, over: u32) -> Span {
    let behind = region.base + region.size;
    let size = heaps::size(random);
    match random.below(8) {
        0 => Span { base: 1 - over, size: random.below(size.min(region.base).max(1)) },
        1 => {
            let size = size.min(u32::MAX - behind + over);
            Span { base: u32::MAX - size + over, size }
        }
        2 => {
            let base = random.between(behind, u32::MAX);
            Span { base, size: (u32::MAX - base).saturating_add(1 + random.number() / 2) }
        }
        3 => {
            let size = size.min((region.base + over).saturating_sub(1));
            Span { base: region.base + over - size, size }
        }
        4 => {
            let base = behind - over;
            Span { base, size: size.min(u32::MAX - base) }
        }
        5..=6 => inside(random, region, over),
        _ => around(random, region),
    }
}

/// In the region: with bytes of it, or without any.
fn inside(random: &mut Random, region: &Span, over: u32) -> Span {
    let shift = random.below(region.size).max(1);
    let size = over * random.between(1, region.size - shift);
    Span { base: region.base + shift, size }
}

/// From below the region, or its base, to behind it, or its end.
fn around(random: &mut Random, region: &Span) -> Span {
    let behind = region.base + region.size;
    let base = region.base.saturating_sub(random.below(40)).max(1);
    let end = behind + random.below((u32::MAX - behind).min(40));
    Span { base, size: end - base }
}

/// Changes one block of those in a heap.
fn spoil_block(random: &mut Random, board: &mut Board, over: u32) {
    let heap = board.heap;
    let order = Memory::of(board).order();
    let index = random.below(order.len() as u32 - 1) as usize;
    let (one, next) = (order[index], order[index + 1]);
    let (first, last) = (order[0], order[order.len() - 1]);
    let blocks = &mut board.blocks;
    let next_base = blocks[next].base;
    match random.below(12) {
        0 => blocks[one].size = 1 - over,
        1 => blocks[last].size = heap.base + heap.size - blocks[last].base + over,
        // Its end is inside the heap once high bits are lost.
        2 => blocks[last].size = (heap.base + random.below(64)).wrapping_sub(blocks[last].base),
        3 => start_at(&mut blocks[first], heap.base - over),
        4 => {
            let base = blocks[one].base;
            blocks[one].alignment = (base & base.wrapping_neg()) << over;
        }
        5 => blocks[one].alignment = 1 - over,
        6..=7 => align_to_two_bits(random, &mut blocks[one]),
        8..=10 => blocks[one].size = next_base + over - blocks[one].base,
        _ => put_inside(random, blocks, one, next),
    }
}

/// Gives the block another base and the same end.
fn start_at(block: &mut Block, base: u32) {
    block.size = block.size.wrapping_add(block.base.wrapping_sub(base));
    (block.base, block.alignment) = (base, 1);
}

/// Gives the block an alignment of two bits, and where it is large enough a multiple of it as base.
fn align_to_two_bits(random: &mut Random, block: &mut Block) {
    let alignment = random.pick(&[3, 5, 6, 24, 0x41, 0x30]);
    match block.base.checked_next_multiple_of(alignment) {
        Some(base) if base - block.base < block.size => start_at(block, base),
        _ => {}
    }
    block.alignment = alignment;
}

/// Puts one block on another: all of it, or a part.
fn put_inside(random: &mut Random, blocks: &mut [Block; 32], one: usize, other: usize) {
    let Span { base, size } = blocks[one].span();
    let shift = if random.one_in(2) { 0 } else { random.below(size) };
    let part = if random.one_in(2) { size - shift } else { random.between(1, size - shift) };
    let block = &mut blocks[other];
    (block.base, block.size, block.alignment) = (base + shift, part, 1);
}
