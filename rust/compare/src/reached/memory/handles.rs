//! The cases of a lock, an unlock and a release.

use super::super::{Reached, Thing};
use super::Message;
use crate::known::{LOCK_MEMORY, RELEASE_MEMORY, UNLOCK_MEMORY};
use crate::memory::Memory;

type Kind = (&'static str, fn(&Memory, u32) -> bool);

const KINDS: [Kind; 7] = [
    ("of an unlocked block", |memory, handle| {
        memory.block(handle).is_some_and(|block| !block.locked)
    }),
    ("of a locked block", |memory, handle| memory.block(handle).is_some_and(|block| block.locked)),
    ("of handle 0", |_, handle| handle == 0),
    ("of a handle above 32", |_, handle| handle > 32),
    ("of a free place", |memory, handle| {
        (1..=32).contains(&handle) && memory.block(handle).is_none()
    }),
    ("of the block with handle 32", |memory, handle| {
        handle == 32 && memory.block(handle).is_some()
    }),
    ("of handle 33", |_, handle| handle == 33),
];

const LOCKED_TWICE: &str = "of a block locked again in the message";

const TAGS: [(u32, &str); 3] =
    [(LOCK_MEMORY, "lock"), (UNLOCK_MEMORY, "unlock"), (RELEASE_MEMORY, "release")];

pub fn all() -> impl Iterator<Item = Thing> {
    let of_tag = |(_, tag)| KINDS.iter().map(move |(kind, _)| Thing::Memory(tag, kind));
    TAGS.into_iter().flat_map(of_tag).chain([Thing::Memory("unlock", LOCKED_TWICE)])
}

impl Reached {
    /// Counts a tag that names a block by its handle.
    pub(super) fn count_handle(&mut self, message: &mut Message, id: u32, handle: u32) {
        let Some((_, tag)) = TAGS.into_iter().find(|(known, _)| *known == id) else { return };
        for (kind, holds) in KINDS {
            if holds(&message.memory, handle) {
                self.add(Thing::Memory(tag, kind));
            }
        }
        let Some(block) = message.memory.block(handle) else { return };
        let place = handle as usize - 1;
        let bit = 1 << place;
        if id == LOCK_MEMORY {
            message.locked_twice |= if block.locked { bit } else { 0 };
            return;
        }
        if id == RELEASE_MEMORY {
            message.released |= bit;
            self.released[place] = block.span();
        } else if message.locked_twice & bit != 0 {
            self.add(Thing::Memory(tag, LOCKED_TWICE));
        }
        message.locked_twice &= !bit;
    }
}
