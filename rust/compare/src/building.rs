//! Random cases of the builder.

use crate::asking::ask;
use crate::case::{Call, Case};
use crate::known;
use crate::random::Random;
use crate::walk::{Tag, HEADER, LONGEST, TAG_HEADER};

/// How many tags at most are listed once they are built.
const MOST_LISTED: usize = 64;

/// Builds a message in a buffer of any length, and asks for what was added.
pub fn building(random: &mut Random, case: &mut Case) {
    let length = match random.below(400) {
        0..=2 => random.between(65_530, 65_560),
        3 => random.between(60_000, 140_000),
        4..=199 => random.below(80),
        _ => random.below(400),
    };
    case.calls.push(Call::Lend(random.bytes(length as usize)));
    if random.below(20) > 0 {
        case.calls.push(Call::Start);
    }
    if length > 60_000 && random.one_in(8) {
        case.calls.extend((0..5_470).map(|_| short_add(random)));
    } else {
        let filling = length > 20 && random.one_in(20);
        case.calls.extend(filling.then(|| filling_add(random, length)));
        case.calls.extend((0..random.below(8)).map(|_| add(random, length)));
    }
    let cursor = if random.one_in(8) { any_cursor(random, length) } else { None };
    case.calls.push(Call::Finish { cursor });
    ask_built(random, &mut case.calls);
}

/// Asks for what was added, before and after it is served.
fn ask_built(random: &mut Random, calls: &mut Vec<Call>) {
    let tags = calls.iter().filter_map(|call| match call {
        Call::Add { id, size, .. } if *id != 0 => {
            Some(Tag { at: 0, id: *id, size: *size, word: 0 })
        }
        _ => None,
    });
    let added: Vec<Tag> = tags.collect();
    if random.below(4) > 0 {
        let listed = added.len().min(MOST_LISTED) + 1;
        calls.extend((0..=listed).map(|index| Call::List { index }));
    }
    if random.one_in(2) {
        calls.push(Call::Serve);
        ask(random, calls, &added);
    }
}

/// A tag to add to a buffer of about this length.
pub fn add(random: &mut Random, length: u32) -> Call {
    let id = match random.below(12) {
        0 => 0,
        1 => random.number(),
        2 => known::stranger(random),
        _ => known::any(random).id,
    };
    let size = match random.below(12) {
        0 => random.number(),
        1 => u32::MAX - random.below(40),
        2..=3 => random.below(length + 8),
        4..=7 => 4 * random.below(5),
        _ => random.below(20),
    };
    let whole = size.min(length + 20);
    let request = match random.below(10) {
        0 => whole + random.between(1, 4),
        1..=4 => whole,
        _ => random.between(0, whole.min(32)),
    };
    let cursor = if random.one_in(14) { any_cursor(random, length) } else { None };
    Call::Add { cursor, id, size, request: random.bytes(request as usize) }
}

/// A first tag that just fills the room of a buffer of this length, or just does not.
fn filling_add(random: &mut Random, length: u32) -> Call {
    let room = length.min(LONGEST as u32);
    let left = room.saturating_sub((HEADER + TAG_HEADER) as u32);
    let size = left.saturating_sub(random.below(36));
    Call::Add { cursor: None, id: known::any(random).id, size, request: Vec::new() }
}

/// A tag of 12 bytes, seldom more.
fn short_add(random: &mut Random) -> Call {
    let size = if random.one_in(900) { random.below(9) } else { 0 };
    Call::Add { cursor: None, id: random.word() | 1, size, request: Vec::new() }
}

/// A cursor for a buffer of about this length.
pub fn any_cursor(random: &mut Random, length: u32) -> Option<usize> {
    let cursor = match random.below(8) {
        0 => random.below(12) as usize,
        1..=2 => 4 * random.below(30) as usize,
        3 => random.below(200) as usize,
        4 => (u32::MAX - random.below(40)) as usize,
        5 => (length + 4).saturating_sub(random.below(40)) as usize,
        6 => (length & !3).saturating_sub(4 * random.below(8)) as usize,
        _ => random.pick(&[65_516, 65_520, 65_524, 65_532, 65_536, 65_540, 1 << 31, (1 << 31) + 8]),
    };
    Some(cursor)
}
