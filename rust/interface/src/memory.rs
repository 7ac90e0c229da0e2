//! Memory handles: their tags, and where in the heap a new block goes.

use crate::record::{Block, Board, Span};
use crate::tags::store;
use crate::walk::word;

pub const ALLOCATE_MEMORY: u32 = 0x0003_000C;
pub const LOCK_MEMORY: u32 = 0x0003_000D;
pub const UNLOCK_MEMORY: u32 = 0x0003_000E;
pub const RELEASE_MEMORY: u32 = 0x0003_000F;

const NO_HANDLE: u32 = 0;
const NO_ADDRESS: u32 = 0;
/// Unlock and release answer whether the handle was known.
const KNOWN: u32 = 0;
const UNKNOWN: u32 = 1;

/// The request length of a memory tag, where the id is one's.
pub fn request_length(id: u32) -> Option<u32> {
    match id {
        ALLOCATE_MEMORY => Some(12),
        LOCK_MEMORY | UNLOCK_MEMORY | RELEASE_MEMORY => Some(4),
        _ => None,
    }
}

/// Carries out a memory tag: the answer, one word, goes over the start of the request. Gives the
/// answer's length.
pub fn carry_out(board: &mut Board, id: u32, value: &mut [u8]) -> u32 {
    let first = word(value, 0);
    let answer = match id {
        ALLOCATE_MEMORY => allocate(board, first, word(value, 4), word(value, 8)),
        LOCK_MEMORY => lock(&mut board.blocks, first),
        UNLOCK_MEMORY => unlock(&mut board.blocks, first),
        _ => release(&mut board.blocks, first),
    };
    store(value, &answer.to_le_bytes())
}

/// The new block's handle.
fn allocate(board: &mut Board, size: u32, alignment: u32, flags: u32) -> u32 {
    if size == 0 || !alignment.is_power_of_two() {
        return NO_HANDLE;
    }
    let Some(place) = board.blocks.iter().position(|block| !block.taken) else {
        return NO_HANDLE;
    };
    let Some(base) = lowest_base(&board.heap, &board.blocks, size, alignment) else {
        return NO_HANDLE;
    };
    board.blocks[place] = Block { taken: true, locked: false, base, size, alignment, flags };
    place as u32 + 1
}

/// The lowest aligned base where so many bytes, above 0, lie in the heap and meet no block.
///
/// The base climbs behind any block in its way. Whatever it skips would meet that block as well,
/// starting before its end and reaching past its start; and no block is in the way twice.
fn lowest_base(heap: &Span, blocks: &[Block], size: u32, alignment: u32) -> Option<u32> {
    let size = u64::from(size);
    let mut base = align(u64::from(heap.base), alignment);
    loop {
        let tried = base;
        for block in blocks.iter().filter(|block| block.taken) {
            let end = block.span().end();
            if u64::from(block.base) < base + size && base < end {
                base = align(end, alignment);
            }
        }
        if base + size > heap.end() {
            return None;
        }
        if base == tried {
            return Some(base as u32);
        }
    }
}

/// The lowest multiple of a power of two at or above the address.
fn align(address: u64, alignment: u32) -> u64 {
    let rest = u64::from(alignment) - 1;
    (address + rest) & !rest
}

fn known(blocks: &mut [Block], handle: u32) -> Option<&mut Block> {
    let block = blocks.get_mut((handle as usize).wrapping_sub(1));
    block.filter(|block| block.taken)
}

/// The block's address.
fn lock(blocks: &mut [Block], handle: u32) -> u32 {
    let Some(block) = known(blocks, handle) else {
        return NO_ADDRESS;
    };
    block.locked = true;
    block.base
}

fn unlock(blocks: &mut [Block], handle: u32) -> u32 {
    let Some(block) = known(blocks, handle) else {
        return UNKNOWN;
    };
    block.locked = false;
    KNOWN
}

/// Frees the block's place, locked or not.
fn release(blocks: &mut [Block], handle: u32) -> u32 {
    let Some(block) = known(blocks, handle) else {
        return UNKNOWN;
    };
    *block = Block::FREE;
    KNOWN
}
