//! Heaps and blocks that only just keep a rule.

use crate::memory::Memory;
use interface::{Block, Board, Span};

type Heap = (&'static str, fn(&Span, &Span) -> bool);

const HEAP: [Heap; 7] = [
    ("a heap from address 1", |heap, _| heap.size > 0 && heap.base == 1),
    ("a heap up to 2^32 - 1", |heap, _| heap.size > 0 && heap.end() == u32::MAX.into()),
    ("a heap directly before the region", |heap, region| {
        heap.size > 0 && heap.end() == region.base.into()
    }),
    ("a heap directly behind the region", |heap, region| {
        heap.size > 0 && region.end() == heap.base.into()
    }),
    ("a heap of no bytes", |heap, _| heap.size == 0),
    ("a heap of no bytes inside the region", |heap, region| {
        heap.size == 0 && region.base < heap.base && region.end() > heap.base.into()
    }),
    ("a heap of no bytes at the region's base", |heap, region| {
        heap.size == 0 && region.base == heap.base
    }),
];

type Taken = (&'static str, fn(&Block, &Span) -> bool);

/// Of a block in a taken place.
const BLOCK: [Taken; 7] = [
    ("a block of one byte", |block, _| block.size == 1),
    ("a block up to the heap's end", |block, heap| block.span().end() == heap.end()),
    ("a block from the heap's base", |block, heap| block.base == heap.base),
    ("a block of alignment 1", |block, _| block.alignment == 1),
    ("a block of alignment 2^31", |block, _| block.alignment == 1 << 31),
    ("a block aligned no further", |block, _| {
        block.alignment > 1 && block.base & block.base.wrapping_neg() == block.alignment
    }),
    ("a block that is locked", |block, _| block.locked),
];

const RISING: &str = "blocks that touch, the lower one in the lower place";
const FALLING: &str = "blocks that touch, the lower one in the higher place";
const NO_PLACE: &str = "no block";
const ALL_BUT_ONE: &str = "blocks in 31 places";
const ALL_PLACES: &str = "blocks in all places";
const FREE: &str = "a free place's numbers over a block";

pub fn names() -> impl Iterator<Item = &'static str> {
    let heap = HEAP.iter().map(|(name, _)| *name);
    let block = BLOCK.iter().map(|(name, _)| *name);
    let places = [RISING, FALLING, NO_PLACE, ALL_BUT_ONE, ALL_PLACES, FREE];
    heap.chain(block).chain(places)
}

/// Sees each name that is true of the record.
pub fn each(board: &Board, see: &mut dyn FnMut(&'static str)) {
    let Board { heap, blocks, display, .. } = board;
    let mut see_if = |holds: bool, name| {
        if holds {
            see(name);
        }
    };
    for (name, holds) in HEAP {
        see_if(holds(heap, &display.region), name);
    }
    let order = Memory::of(board).order();
    for (name, holds) in BLOCK {
        see_if(order.iter().any(|place| holds(&blocks[*place], heap)), name);
    }
    let touch = |pair: &&[usize]| blocks[pair[0]].span().end() == u64::from(blocks[pair[1]].base);
    let touching = || order.windows(2).filter(touch);
    see_if(touching().any(|pair| pair[0] < pair[1]), RISING);
    see_if(touching().any(|pair| pair[0] > pair[1]), FALLING);
    see_if(order.is_empty(), NO_PLACE);
    see_if(order.len() == 31, ALL_BUT_ONE);
    see_if(order.len() == 32, ALL_PLACES);
    let over = |free: &Block| order.iter().any(|place| blocks[*place].span().meets(&free.span()));
    see_if(blocks.iter().any(|block| !block.taken && block.size > 0 && over(block)), FREE);
}
