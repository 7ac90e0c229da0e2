//! Fewer calls, and plainer ones.

use super::Shrinker;
use crate::case::Call;
use crate::sides::{library_after, run};

impl Shrinker<'_> {
    /// Puts in the place of the calls before the one that disagrees what they lead to: the record,
    /// the lent bytes and the cursor.
    pub fn last_call_alone(&mut self) {
        let Some(disagreement) = run(&self.case, None) else { return };
        let before = library_after(&self.case, disagreement.call);
        let mut call = self.case.calls[disagreement.call].clone();
        if let Call::Add { cursor, .. } | Call::Finish { cursor } = &mut call {
            cursor.get_or_insert(before.cursor);
        }
        self.attempt(|case| {
            case.board = before.board;
            case.calls = vec![Call::Lend(before.bytes.lent().to_vec()), call];
        });
    }

    /// Drops calls, many at a time first.
    pub fn drop_calls(&mut self) {
        let mut many = self.case.calls.len();
        while many > 0 {
            let mut at = self.case.calls.len();
            while at >= many {
                at -= many;
                self.attempt(|case| drop(case.calls.drain(at..at + many)));
                at = at.min(self.case.calls.len());
            }
            many /= 2;
        }
    }

    pub fn plainer_calls(&mut self) {
        for call in 0..self.case.calls.len() {
            self.attempt(|case| match &mut case.calls[call] {
                Call::Add { cursor, .. } | Call::Finish { cursor } => *cursor = None,
                _ => {}
            });
            for keep in [0, 1, 8, 0xF, 0xFF, 0xFFFF, 0xFFFF_FFFF, !0xFFFF] {
                for number in 0..4 {
                    self.attempt(|case| plainer_number(&mut case.calls[call], number, keep));
                }
            }
            while self.attempt(|case| shorten_request(&mut case.calls[call], |length| length / 2)) {
            }
            while self.attempt(|case| shorten_request(&mut case.calls[call], |length| length - 1)) {
            }
        }
    }
}

/// Cuts the request of an add to a length made from its own, where it has bytes.
fn shorten_request(call: &mut Call, shorter: fn(usize) -> usize) {
    if let Call::Add { request, .. } = call {
        if !request.is_empty() {
            request.truncate(shorter(request.len()));
        }
    }
}

/// Keeps only these bits of one of the call's numbers.
fn plainer_number(call: &mut Call, number: u32, keep: usize) {
    match (call, number) {
        (Call::Write { word, .. }, 0) => *word &= keep as u32,
        (Call::Add { id, .. }, 0) => *id &= keep as u32,
        (Call::Add { size, .. }, 1) => *size &= keep as u32,
        (Call::Add { request, .. }, 2) => request.iter_mut().for_each(|byte| *byte &= keep as u8),
        (Call::Add { cursor: Some(cursor), .. }, 3) => *cursor &= keep,
        (Call::Finish { cursor: Some(cursor) }, 0) => *cursor &= keep,
        (Call::List { index }, 0) => *index &= keep,
        (Call::Read { id, .. } | Call::ReadOr { id, .. }, 0) => *id &= keep as u32,
        (Call::Read { occurrence, .. } | Call::ReadOr { occurrence, .. }, 1) => *occurrence &= keep,
        (Call::Read { wanted, .. } | Call::ReadOr { wanted, .. }, 2) => *wanted &= keep,
        (Call::ReadOr { default, .. }, 3) => *default &= keep,
        _ => {}
    }
}
