//! Tags of memory in a row, about the handles that come out of them.

use super::{value_size, Draft};
use crate::known::{self, ALLOCATE_MEMORY, LOCK_MEMORY, MEMORY, RELEASE_MEMORY, UNLOCK_MEMORY};
use crate::memory::Words;
use crate::random::Random;
use crate::requests::memory;

impl Draft {
    pub fn push_memory_run(&mut self, random: &mut Random) {
        match random.below(6) {
            0 => self.allocate_many(random),
            1 => self.release_many(random),
            2 => self.allocate_and_use(random),
            3 => self.lock_twice(random),
            4 => self.allocate_again(random),
            _ => {
                for _ in 0..random.between(2, 40) {
                    let id = random.pick(&MEMORY).id;
                    self.push_memory(random, id, None);
                }
            }
        }
    }

    /// Adds a tag of memory with these words or any; the answer that it will have.
    fn push_memory(&mut self, random: &mut Random, id: u32, words: Option<Words>) -> u32 {
        let words = words.unwrap_or_else(|| memory::words(random, &self.memory, id));
        let Some(known) = known::of(id) else { return 0 };
        let size = value_size(random, *known);
        let Some(value) = self.open(random, id, size) else { return 0 };
        memory::put(words, &mut self.bytes[value.clone()]);
        self.foretell(id, value)
    }

    fn push_handle(&mut self, random: &mut Random, id: u32, handle: u32) {
        self.push_memory(random, id, Some([handle, 0, 0]));
    }

    /// Allocates, often more than there are places.
    fn allocate_many(&mut self, random: &mut Random) {
        let most = random.pick(&[8, 32, 40, 70]);
        for _ in 0..random.between(2, most).max(most / 2) {
            let words = random.below(12) > 0;
            let words = words.then(|| memory::small(random, &self.memory));
            self.push_memory(random, ALLOCATE_MEMORY, words);
        }
    }

    /// Releases blocks here and there, and allocates in the gaps.
    fn release_many(&mut self, random: &mut Random) {
        for _ in 0..random.between(1, 12) {
            let handle = memory::place(random, &self.memory, true).map_or(1, |place| place + 1);
            self.push_handle(random, RELEASE_MEMORY, handle);
        }
        for _ in 0..random.between(1, 14) {
            self.push_memory(random, ALLOCATE_MEMORY, None);
        }
    }

    fn allocate_and_use(&mut self, random: &mut Random) {
        let words = memory::small(random, &self.memory);
        let handle = self.push_memory(random, ALLOCATE_MEMORY, Some(words));
        for _ in 0..random.between(1, 6) {
            let id = random.pick(&[LOCK_MEMORY, LOCK_MEMORY, UNLOCK_MEMORY, RELEASE_MEMORY]);
            self.push_handle(random, id, handle);
        }
    }

    /// Locks a block twice and unlocks it, mostly once.
    fn lock_twice(&mut self, random: &mut Random) {
        let handle = memory::place(random, &self.memory, true).map_or(1, |place| place + 1);
        for id in [LOCK_MEMORY, LOCK_MEMORY, UNLOCK_MEMORY] {
            self.push_handle(random, id, handle);
        }
        if random.one_in(4) {
            self.push_handle(random, UNLOCK_MEMORY, handle);
        }
    }

    /// Releases a block that is locked, and allocates as many bytes, or one more or less.
    fn allocate_again(&mut self, random: &mut Random) {
        let handle = memory::place(random, &self.memory, true).map_or(1, |place| place + 1);
        let block = self.memory.blocks[handle as usize - 1];
        self.push_handle(random, LOCK_MEMORY, handle);
        self.push_handle(random, RELEASE_MEMORY, handle);
        let by = random.pick(&[0, 0, 1, u32::MAX]);
        let words = [block.size.wrapping_add(by), block.alignment, block.flags];
        let again = self.push_memory(random, ALLOCATE_MEMORY, Some(words));
        self.push_handle(random, LOCK_MEMORY, again);
    }
}
