//! A walk over a message of the comparison's own: cases are made and counted without either side.

use std::ops::Range;

pub const HEADER: usize = 8;
pub const TAG_HEADER: usize = 12;
pub const SHORTEST: usize = 12;
pub const LONGEST: usize = 65_536;

/// Bit 31 of a tag word: the tag is a response.
pub const ANSWERED: u32 = 0x8000_0000;

pub fn word(bytes: &[u8], at: usize) -> u32 {
    let bytes = &bytes[at..at + 4];
    u32::from_le_bytes([bytes[0], bytes[1], bytes[2], bytes[3]])
}

pub fn put_word(bytes: &mut [u8], at: usize, word: u32) {
    bytes[at..at + 4].copy_from_slice(&word.to_le_bytes());
}

#[derive(Clone, Copy)]
pub struct Tag {
    pub at: usize,
    pub id: u32,
    /// The value's size.
    pub size: u32,
    pub word: u32,
}

impl Tag {
    pub fn value(&self) -> Range<usize> {
        let start = self.at + TAG_HEADER;
        start..start + self.size as usize
    }

    /// Where the tag behind its padded value begins.
    pub fn next(&self) -> usize {
        self.value().end.next_multiple_of(4)
    }

    pub fn is_request(&self) -> bool {
        self.word & ANSWERED == 0
    }
}

/// The message's size, where the lent bytes hold one of a good size.
pub fn size_of(lent: &[u8]) -> Option<usize> {
    let size = word(lent.get(..SHORTEST)?, 0) as usize;
    let good = (SHORTEST..=LONGEST).contains(&size) && size % 4 == 0 && size <= lent.len();
    good.then_some(size)
}

/// The tags that the walk over these bytes meets.
pub fn tags(lent: &[u8]) -> Vec<Tag> {
    let Some(size) = size_of(lent) else { return Vec::new() };
    let message = &lent[..size];
    let next = |tag: &Tag| tag_at(message, tag.next());
    std::iter::successors(tag_at(message, HEADER), next).collect()
}

fn tag_at(message: &[u8], at: usize) -> Option<Tag> {
    let header = message.get(at..at + TAG_HEADER)?;
    let tag = Tag { at, id: word(header, 0), size: word(header, 4), word: word(header, 8) };
    let left = message.len() - at - TAG_HEADER;
    (tag.id != 0 && tag.size as usize <= left).then_some(tag)
}
