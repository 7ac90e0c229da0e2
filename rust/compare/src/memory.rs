//! The heap and its blocks as the comparison itself reckons with them: requests are made and
//! counted without either side.

use crate::known::{ALLOCATE_MEMORY, LOCK_MEMORY, MEMORY, UNLOCK_MEMORY};
use crate::walk::word;
use interface::{Block, Board, Span};
use std::ops::Range;

#[derive(Clone, Copy)]
pub struct Memory {
    pub heap: Span,
    pub blocks: [Block; 32],
}

/// Addresses without a block.
pub type Gap = Range<u64>;

/// The words of a request: size, alignment and flags, or a handle.
pub type Words = [u32; 3];

/// The words of a value, where it is as long as the request of this memory tag.
pub fn words(id: u32, value: &[u8]) -> Option<Words> {
    let known = MEMORY.iter().find(|known| known.id == id)?;
    let request = value.get(..known.request as usize)?;
    let at = |at: usize| if at < request.len() { word(request, at) } else { 0 };
    Some([at(0), at(4), at(8)])
}

/// The lowest multiple of a power of two at or above the address.
pub fn align(address: u64, alignment: u32) -> u64 {
    let rest = u64::from(alignment) - 1;
    (address + rest) & !rest
}

impl Memory {
    pub fn of(board: &Board) -> Memory {
        Memory { heap: board.heap, blocks: board.blocks }
    }

    /// The places that are taken, by the addresses of their blocks.
    pub fn order(&self) -> Vec<usize> {
        let taken = |place: &usize| self.blocks[*place].taken;
        let mut order: Vec<usize> = (0..self.blocks.len()).filter(taken).collect();
        order.sort_unstable_by_key(|place| self.blocks[*place].base);
        order
    }

    /// The gaps, empty ones too: one before each block, by address, and one behind the last.
    pub fn gaps(&self) -> Vec<Gap> {
        let mut gaps = Vec::with_capacity(self.blocks.len() + 1);
        let mut at = u64::from(self.heap.base);
        for place in self.order() {
            let block = self.blocks[place].span();
            gaps.push(at..at.max(block.base.into()));
            at = at.max(block.end());
        }
        gaps.push(at..at.max(self.heap.end()));
        gaps
    }

    /// The block that a handle names.
    pub fn block(&self, handle: u32) -> Option<&Block> {
        self.blocks.get((handle as usize).wrapping_sub(1)).filter(|block| block.taken)
    }

    pub fn free_place(&self) -> Option<usize> {
        self.blocks.iter().position(|block| !block.taken)
    }

    /// The answer to a memory tag, carried out.
    pub fn carry_out(&mut self, id: u32, words: Words) -> u32 {
        if id == ALLOCATE_MEMORY {
            return self.allocate(words).unwrap_or(0);
        }
        let block = self.blocks.get_mut((words[0] as usize).wrapping_sub(1));
        let block = block.filter(|block| block.taken);
        match (id, block) {
            (LOCK_MEMORY, None) => 0,
            (LOCK_MEMORY, Some(block)) => {
                block.locked = true;
                block.base
            }
            (_, None) => 1,
            (UNLOCK_MEMORY, Some(block)) => {
                block.locked = false;
                0
            }
            (_, Some(block)) => {
                *block = Block::FREE;
                0
            }
        }
    }

    fn allocate(&mut self, [size, alignment, flags]: Words) -> Option<u32> {
        let place = self.free_place()?;
        let base = lowest(&self.gaps(), size, alignment)?;
        self.blocks[place] = Block { taken: true, locked: false, base, size, alignment, flags };
        Some(place as u32 + 1)
    }
}

/// The base of a block in the first of the gaps that holds it.
pub fn lowest(gaps: &[Gap], size: u32, alignment: u32) -> Option<u32> {
    let fits = |gap: &Gap| {
        let base = align(gap.start, alignment);
        (base + u64::from(size) <= gap.end).then_some(base as u32)
    };
    if size > 0 && alignment.count_ones() == 1 {
        gaps.iter().find_map(fits)
    } else {
        None
    }
}
