//! A message in the making.

use crate::memory::{words, Memory};
use crate::random::Random;
use crate::requests;
use crate::walk::{put_word, word, ANSWERED, HEADER, LONGEST, TAG_HEADER};
use interface::Board;
use std::ops::Range;

pub struct Draft {
    pub bytes: Vec<u8>,
    /// Where each tag begins.
    pub tags: Vec<usize>,
    /// Where the end word stands.
    pub end: usize,
    /// The memory as the tags leave it.
    pub memory: Memory,
    /// Whether tags now and then are responses already.
    answered: bool,
}

impl Draft {
    pub fn new(random: &mut Random, board: &Board) -> Draft {
        let answered = random.one_in(4);
        let memory = Memory::of(board);
        Draft { bytes: vec![0; HEADER], tags: Vec::new(), end: 0, memory, answered }
    }

    /// Adds a tag, where there is room for it and an end word.
    pub fn push(&mut self, random: &mut Random, board: &Board, id: u32, size: u32) {
        if let Some(value) = self.open(random, id, size) {
            let bytes = &mut self.bytes[value.clone()];
            requests::fill(random, board, &self.memory, id, bytes);
            self.foretell(id, value);
        }
    }

    /// Adds a tag with a value of random bytes; where that lies.
    pub fn open(&mut self, random: &mut Random, id: u32, size: u32) -> Option<Range<usize>> {
        let value = self.bytes.len() + TAG_HEADER;
        if value + padded(size) + 4 > LONGEST {
            return None;
        }
        self.tags.push(self.bytes.len());
        let low = if random.one_in(5) { random.number() & 0x7FFF_FFFF } else { 0 };
        let bit_31 = self.answered && random.one_in(3);
        for word in [id, size, low | u32::from(bit_31) << 31] {
            self.bytes.extend_from_slice(&word.to_le_bytes());
        }
        self.bytes.extend_from_slice(&random.bytes(padded(size)));
        Some(value..value + size as usize)
    }

    /// Carries out the tag just added, where it is one of memory and a request; its answer.
    pub fn foretell(&mut self, id: u32, value: Range<usize>) -> u32 {
        let is_request = word(&self.bytes, value.start - 4) & ANSWERED == 0;
        match words(id, &self.bytes[value]) {
            Some(words) if is_request => self.memory.carry_out(id, words),
            _ => 0,
        }
    }

    /// The end word, the size word, and what lies behind them.
    pub fn close(&mut self, random: &mut Random) {
        self.end = self.bytes.len();
        self.bytes.extend_from_slice(&[0; 4]);
        let left = (LONGEST.saturating_sub(self.bytes.len()) / 4) as u32;
        let words = if random.one_in(2) { random.below(5).min(left) } else { 0 };
        self.bytes.extend_from_slice(&random.bytes(4 * words as usize));
        let size = self.bytes.len() as u32;
        put_word(&mut self.bytes, 0, size);
        if random.one_in(3) {
            let behind = random.below(24) as usize;
            self.bytes.extend_from_slice(&random.bytes(behind));
        }
    }
}

pub fn padded(size: u32) -> usize {
    size.next_multiple_of(4) as usize
}
