//! What tags of memory ask and come to.

mod allocate;
mod handles;

pub use allocate::alignments;

use super::{Reached, Thing};
use crate::known::{ALLOCATE_MEMORY, MEMORY};
use crate::memory::{words, Memory};
use crate::sides::Side;
use crate::walk::{word, Tag};
use allocate::Asked;
use interface::Span;

const MANY: &str = "more than 32 times in one message";
const ALL_PLACES: &str = "granted 32 times in one message";
const KEPT: &str = "granted before a fault";
const BEHIND: &str = "behind a fault";
const SHORT: &str = "one byte short";
const LONG: &str = "granted with a value longer than the request";
const RESPONSE: &str = "that came as a response";
const GROUPED: &str = "granted beside a change of the frame buffer";

pub fn all() -> impl Iterator<Item = Thing> {
    let messages = [MANY, ALL_PLACES, KEPT, BEHIND, SHORT, LONG, RESPONSE, GROUPED];
    let allocate = messages.into_iter().chain(allocate::kinds());
    allocate.map(|kind| Thing::Memory("allocate", kind)).chain(handles::all())
}

/// What the calls of a case have released so far, by place; none where it was given again.
pub type Released = [Span; 32];

/// The message under way, up to a tag.
struct Message {
    memory: Memory,
    /// Bits of the places that it released.
    released: u32,
    /// Bits of the places whose blocks it locked while they were locked already.
    locked_twice: u32,
    /// How many allocates it has, and how many of them were granted.
    asked: u32,
    granted: u32,
}

impl Reached {
    /// Counts the memory tags of a message whose walk meets these tags.
    pub fn count_memory(&mut self, before: &Side, after: &Side, tags: &[Tag]) {
        let [outcome, place, ..] = after.numbers;
        if !matches!(outcome, 0 | 4..=6) || !tags.iter().any(is_memory) {
            return;
        }
        let fault = if outcome == 6 { place as usize } else { usize::MAX };
        let memory = Memory::of(&before.board);
        let mut message = Message { memory, released: 0, locked_twice: 0, asked: 0, granted: 0 };
        for tag in tags.iter().filter(|tag| is_memory(tag)) {
            self.allocate_if(tag.id == ALLOCATE_MEMORY && !tag.is_request(), RESPONSE);
            if tag.is_request() && tag.at < fault {
                self.count_carried_out(&mut message, before, after, tag);
            }
            let allocate = tag.id == ALLOCATE_MEMORY && tag.is_request();
            self.allocate_if(allocate && tag.at > fault && tag.size >= 12, BEHIND);
            self.allocate_if(allocate && tag.at == fault && tag.size == 11, SHORT);
        }
        let is_as_reckoned = message.memory.blocks == after.board.blocks;
        assert!(is_as_reckoned, "both sides leave other blocks than were reckoned");
        self.allocate_if(message.asked > 32, MANY);
        self.allocate_if(message.granted >= 32, ALL_PLACES);
        self.allocate_if(message.granted > 0 && outcome != 0, KEPT);
        let changed = before.board.display != after.board.display;
        self.allocate_if(message.granted > 0 && changed, GROUPED);
    }

    fn allocate_if(&mut self, is_kind: bool, kind: &'static str) {
        if is_kind {
            self.add(Thing::Memory("allocate", kind));
        }
    }

    /// Counts a tag and carries it out.
    fn count_carried_out(&mut self, message: &mut Message, before: &Side, after: &Side, tag: &Tag) {
        let Some(words) = words(tag.id, &before.bytes.lent()[tag.value()]) else { return };
        let answer = word(after.bytes.lent(), tag.value().start);
        let allocate = tag.id == ALLOCATE_MEMORY;
        let asked = allocate.then(|| Asked::of(&message.memory, words));
        self.count_handle(message, tag.id, words[0]);
        let reckoned = message.memory.carry_out(tag.id, words);
        assert!(reckoned == answer, "both sides answer {answer}, where {reckoned} was reckoned");
        if let Some(asked) = asked {
            self.count_allocate(message, &asked, answer);
            self.allocate_if(answer != 0 && tag.size > 12, LONG);
        }
    }

    fn count_allocate(&mut self, message: &mut Message, asked: &Asked, answer: u32) {
        message.asked += 1;
        let Some(block) = message.memory.block(answer) else { return self.count_refused(asked) };
        message.granted += 1;
        let place = answer as usize - 1;
        self.count_granted(asked, place, block.span());
        self.count_given_again(message.released, place, block.span());
        message.released &= !(1 << place);
    }
}

fn is_memory(tag: &Tag) -> bool {
    MEMORY.iter().any(|known| known.id == tag.id)
}
