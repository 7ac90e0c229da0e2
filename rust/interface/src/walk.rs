//! Words of a message, its size, and the walk over its tags.

use crate::outcome::{BAD_SIZE, NO_END, RUNS_OVER, TOO_FEW_LENT};
use std::ops::Range;

/// Size word and code word.
pub const HEADER: usize = 8;
/// Id, value size and tag word.
pub const TAG_HEADER: usize = 12;
pub const END: usize = 4;
pub const LONGEST: usize = 65_536;

/// The offset of the code word.
pub const CODE: usize = 4;
pub const REQUEST: u32 = 0;
pub const SUCCESS: u32 = 0x8000_0000;
pub const FAILURE: u32 = 0x8000_0001;

/// Bit 31 of a tag word: the tag is a response.
pub const ANSWERED: u32 = 0x8000_0000;

#[inline]
pub fn word(bytes: &[u8], at: usize) -> u32 {
    let bytes = &bytes[at..at + 4];
    u32::from_le_bytes([bytes[0], bytes[1], bytes[2], bytes[3]])
}

#[inline]
pub fn put_word(bytes: &mut [u8], at: usize, word: u32) {
    bytes[at..at + 4].copy_from_slice(&word.to_le_bytes());
}

/// The message's size, where the lent bytes hold one of a good size.
pub fn size_of(lent: &[u8]) -> Result<usize, u32> {
    if lent.len() < HEADER + END {
        return Err(TOO_FEW_LENT);
    }
    let size = word(lent, 0) as usize;
    let good = (HEADER + END..=LONGEST).contains(&size) && size % 4 == 0 && size <= lent.len();
    if good {
        Ok(size)
    } else {
        Err(BAD_SIZE)
    }
}

#[derive(Clone, Copy, Debug)]
pub struct Tag {
    pub at: usize,
    pub id: u32,
    /// The value's size.
    pub size: u32,
    pub word: u32,
}

impl Tag {
    #[inline]
    pub fn value(&self) -> Range<usize> {
        let start = self.at + TAG_HEADER;
        start..start + self.size as usize
    }

    /// Where the tag behind its padded value begins.
    #[inline]
    pub fn next(&self) -> usize {
        self.value().end.next_multiple_of(4)
    }

    #[inline]
    pub fn is_request(&self) -> bool {
        self.word & ANSWERED == 0
    }
}

pub enum Step {
    Tag(Tag),
    End,
    Fault(u32),
}

/// The step of the walk at this place, in a message cut to its size.
#[inline]
pub fn step(message: &[u8], at: usize) -> Step {
    if at == message.len() {
        return Step::Fault(NO_END);
    }
    let id = word(message, at);
    if id == 0 {
        return Step::End;
    }
    let Some(left) = message.len().checked_sub(at + TAG_HEADER) else {
        return Step::Fault(RUNS_OVER);
    };
    let size = word(message, at + 4);
    // What is left is a multiple of 4, so a value fits padded where it fits at all.
    if size as usize > left {
        return Step::Fault(RUNS_OVER);
    }
    Step::Tag(Tag { at, id, size, word: word(message, at + 8) })
}
