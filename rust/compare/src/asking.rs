//! Random calls of the lister and the reader.

use crate::case::Call;
use crate::known;
use crate::random::Random;
use crate::walk::{Tag, ANSWERED};

/// Up to how many tags all of a message are listed.
const MOST_LISTED: usize = 64;

/// Asks for these tags of a message and for others.
pub fn ask(random: &mut Random, calls: &mut Vec<Call>, seen: &[Tag]) {
    if seen.len() <= MOST_LISTED && random.one_in(4) {
        calls.extend((0..=seen.len() + 1).map(|index| Call::List { index }));
    } else {
        let index = match random.below(3) {
            0 => seen.len().saturating_sub(1),
            _ => random.below(seen.len() as u32 + 2) as usize,
        };
        calls.push(Call::List { index: perhaps_far(random, index) });
    }
    for _ in 0..random.below(5) {
        let (id, occurrence, wanted) = reading(random, seen);
        let default = random.below(12) as usize;
        calls.push(Call::Read { id, occurrence, wanted });
        calls.push(Call::ReadOr { id, occurrence, wanted, default });
    }
}

/// Now and then a number that is this one once high bits are lost, or one near the highest.
fn perhaps_far(random: &mut Random, number: usize) -> usize {
    match random.below(40) {
        0 => number.wrapping_add(1 << 32),
        1 => number.wrapping_add(1 << random.between(8, 63)),
        2 => usize::MAX - number,
        _ => number,
    }
}

/// The id, the occurrence and the wanted length of a reading.
fn reading(random: &mut Random, seen: &[Tag]) -> (u32, usize, usize) {
    let at = match random.below(8) {
        0 => seen.len(),
        1..=2 => seen.len().saturating_sub(1),
        _ => random.below(seen.len() as u32) as usize,
    };
    let stranger = Tag { at: 0, id: random.number(), size: random.below(20), word: 0 };
    let tag = seen.get(at).unwrap_or(&stranger);
    let before = seen[..at].iter().filter(|other| other.id == tag.id).count();
    let occurrence = match random.below(12) {
        0 => before + 1,
        1 => random.below(4) as usize,
        _ => before,
    };
    let wanted = wanted(random, tag);
    (tag.id, perhaps_far(random, occurrence), perhaps_far(random, wanted))
}

/// How many bytes are wanted of the tag's answer: about as many as are stored.
fn wanted(random: &mut Random, tag: &Tag) -> usize {
    let answer = match known::of(tag.id) {
        Some(known) if tag.is_request() => known.answer,
        _ => tag.word & !ANSWERED,
    };
    let stored = answer.min(tag.size) as usize;
    match random.below(12) {
        0 => random.below(16) as usize,
        1 => stored + 1,
        2 => stored.saturating_sub(1),
        3 => tag.size as usize + random.below(3) as usize,
        4 => answer as usize + random.below(2) as usize,
        5 => random.pick(&[usize::MAX, 1 << 32, (1 << 32) + 4, 1 << 31, usize::MAX - 3]),
        6..=7 => 0,
        _ => stored,
    }
}
