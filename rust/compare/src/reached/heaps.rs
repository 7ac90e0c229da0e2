//! The heap and the blocks of stored records: each rule broken by itself, and only just kept.

mod broken;
mod kept;

use super::{Reached, Thing};
use interface::{is_valid, Block, Board, Span};

pub fn all() -> impl Iterator<Item = Thing> {
    let refused = broken::NAMES.into_iter().map(|name| Thing::Heap("refused", name));
    refused.chain(kept::names().map(|name| Thing::Heap("taken", name)))
}

impl Reached {
    /// Counts the heap and the blocks of a record that is valid, or is not for one rule of theirs.
    pub fn count_stored_heap(&mut self, board: &Board, outcome: u64) {
        if outcome != 14 {
            kept::each(board, &mut |name| self.add(Thing::Heap("taken", name)));
            return;
        }
        let heap = Span { base: 1, size: 0 };
        let mended = Board { heap, blocks: [Block::FREE; 32], ..*board };
        match broken::all(board)[..] {
            [name] if is_valid(&mended) => self.add(Thing::Heap("refused", name)),
            _ => {}
        }
    }
}
