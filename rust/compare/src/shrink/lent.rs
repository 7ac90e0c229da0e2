//! Fewer lent bytes, and plainer ones.

use super::cost::digits;
use super::Shrinker;
use crate::case::Call;
use crate::walk::{put_word, size_of, tags, word, Tag, TAG_HEADER};

/// How many words are cut out at any place; more go by halves only.
const FEW: usize = 24;
/// Up to how many words a few are cut out at any place.
const SHORT: usize = 256;
/// The id of a tag that is passed over.
const UNKNOWN: u32 = 2;

impl Shrinker<'_> {
    pub fn each_lent(&mut self, pass: fn(&mut Self, usize)) {
        for call in 0..self.case.calls.len() {
            if matches!(self.case.calls.get(call), Some(Call::Lend(_))) {
                pass(self, call);
            }
        }
    }

    fn lent(&self, call: usize) -> &[u8] {
        match &self.case.calls[call] {
            Call::Lend(bytes) => bytes,
            _ => &[],
        }
    }

    fn change_lent(&mut self, call: usize, change: impl FnOnce(&mut Vec<u8>)) -> bool {
        self.attempt(|case| {
            if let Call::Lend(bytes) = &mut case.calls[call] {
                change(bytes);
            }
        })
    }

    /// Makes one unknown tag of many, which leaves those behind where they are.
    pub fn join_tags(&mut self, call: usize) {
        let tags = tags(self.lent(call));
        for many in halves(tags.len()) {
            for joined in tags.chunks(many) {
                let (start, end) = (joined[0].at, joined[joined.len() - 1].next());
                self.change_lent(call, |bytes| {
                    bytes[start..end].fill(0);
                    put_word(bytes, start, UNKNOWN);
                    put_word(bytes, start + 4, (end - start - TAG_HEADER) as u32);
                });
            }
        }
    }

    /// Sets words to 0, all first, then many at a time.
    pub fn clear_words(&mut self, call: usize) {
        let words = self.lent(call).len() / 4;
        for many in halves(words) {
            for from in (0..=words - many).step_by(many) {
                let range = 4 * from..4 * (from + many);
                if self.lent(call)[range.clone()].iter().any(|byte| *byte != 0) {
                    self.change_lent(call, |bytes| bytes[range].fill(0));
                }
            }
        }
    }

    /// Cuts out words, many at a time first.
    pub fn cut_words(&mut self, call: usize) {
        for many in halves(self.lent(call).len() / 4).take_while(|many| *many > FEW) {
            self.cut_each(call, many, many);
        }
        if self.lent(call).len() / 4 <= SHORT {
            for many in (1..=FEW).rev() {
                self.cut_each(call, many, 1);
            }
        }
        for many in [16, 4, 1] {
            while self.lent(call).len() >= 4 * many {
                let shorter = self.lent(call).len() - 4 * many;
                if !self.change_lent(call, |bytes| bytes.truncate(shorter)) {
                    break;
                }
            }
        }
    }

    /// Cuts out this many words at every place of this step, with and without a size word that goes
    /// along.
    fn cut_each(&mut self, call: usize, many: usize, step: usize) {
        let mut at = self.lent(call).len() / 4;
        while at > 0 {
            at -= step.min(at);
            let (from, to) = (4 * at, 4 * (at + many));
            if to <= self.lent(call).len() {
                let cut = self.change_lent(call, |bytes| remove(bytes, from, to));
                let _ = cut || self.change_lent(call, |bytes| drop(bytes.drain(from..to)));
            }
        }
    }

    /// Cuts off the bytes behind the size, and those behind the last word.
    pub fn cut_tails(&mut self, call: usize) {
        if let Some(size) = size_of(self.lent(call)) {
            self.change_lent(call, |bytes| bytes.truncate(size));
        }
        while self.lent(call).len() % 4 != 0 {
            let shorter = self.lent(call).len() - 1;
            if !self.change_lent(call, |bytes| bytes.truncate(shorter)) {
                break;
            }
        }
    }

    /// Adds an end word, which costs less than the outcome of a message without one.
    pub fn add_end(&mut self, call: usize) {
        if let Some(size) = size_of(self.lent(call)) {
            self.change_lent(call, |bytes| {
                bytes.splice(size..size, [0; 4]);
                put_word(bytes, 0, size as u32 + 4);
            });
        }
    }

    pub fn shorten_values(&mut self, call: usize) {
        for tag in tags(self.lent(call)).into_iter().rev() {
            for shorter in [0, 4, 8, tag.size / 2, tag.size & !3, tag.size.saturating_sub(1)] {
                if shorter < tag.size && self.shorten_value(call, &tag, shorter) {
                    break;
                }
            }
        }
    }

    /// Cuts off the value's last bytes, or else its first.
    fn shorten_value(&mut self, call: usize, tag: &Tag, shorter: u32) -> bool {
        let start = tag.value().start;
        let kept = shorter.next_multiple_of(4) as usize;
        let cut = [start + kept..tag.next(), start..tag.next() - kept];
        cut.into_iter().any(|cut| {
            self.change_lent(call, |bytes| {
                put_word(bytes, tag.at + 4, shorter);
                remove(bytes, cut.start, cut.end);
            })
        })
    }

    pub fn plainer_words(&mut self, call: usize) {
        for at in (0..self.lent(call).len() / 4).map(|index| 4 * index) {
            let now = word(self.lent(call), at);
            let plainer = [0, 1, 2, 4, 8, now & 0x8000_0000, now & 0xFF, now & 0xFFFF, now & !0xFF];
            for value in plainer {
                let fewer = digits(value.into()) < digits(now.into());
                if fewer && self.change_lent(call, |bytes| put_word(bytes, at, value)) {
                    break;
                }
            }
        }
    }
}

/// The number, its half, and so on down to 1.
fn halves(number: usize) -> impl Iterator<Item = usize> {
    std::iter::successors(Some(number), |many| Some(many / 2)).take_while(|many| *many > 0)
}

/// Cuts bytes out and lets the size word go along.
fn remove(bytes: &mut Vec<u8>, from: usize, to: usize) {
    bytes.drain(from..to);
    if bytes.len() >= 4 {
        let size = word(bytes, 0).wrapping_sub((to - from) as u32);
        put_word(bytes, 0, size);
    }
}
