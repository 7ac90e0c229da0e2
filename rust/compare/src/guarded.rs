//! Lent bytes between two guards that no call may change.

use std::ops::Range;

/// The least length of a guard.
const GUARD: usize = 16;
const FILL: u8 = 0xA5;

#[derive(Clone)]
pub struct Guarded {
    whole: Vec<u8>,
    lent: Range<usize>,
}

impl Guarded {
    /// Lends these bytes at an address that leaves this rest when divided by 16.
    pub fn new(bytes: &[u8], rest: usize) -> Guarded {
        let mut whole = vec![FILL; GUARD + 15 + bytes.len() + GUARD];
        let earliest = whole.as_ptr() as usize + GUARD;
        let start = GUARD + (rest.wrapping_sub(earliest) & 15);
        let lent = start..start + bytes.len();
        whole[lent.clone()].copy_from_slice(bytes);
        Guarded { whole, lent }
    }

    pub fn lent(&self) -> &[u8] {
        &self.whole[self.lent.clone()]
    }

    pub fn lent_mut(&mut self) -> &mut [u8] {
        &mut self.whole[self.lent.clone()]
    }

    /// Whether the guards are as they were.
    pub fn is_intact(&self) -> bool {
        let behind = &self.whole[self.lent.end..];
        self.whole[..self.lent.start].iter().chain(behind).all(|byte| *byte == FILL)
    }
}
