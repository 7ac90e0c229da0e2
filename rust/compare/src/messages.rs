//! Random requests: tags, an end word and a good size.

mod draft;
mod memory;

pub use draft::{padded, Draft};

use crate::known::{self, Known, BUFFER_TAGS, GETS, MEMORY, OUTSIDE_GROUP, SETS, TESTS};
use crate::random::Random;
use crate::walk::{put_word, LONGEST, TAG_HEADER};
use interface::Board;

/// Which tags a message draws on.
#[derive(Clone, Copy)]
struct Drawn {
    group: Group,
    /// How many of 8 tags outside the group are of memory.
    memory: u32,
}

/// Which frame buffer tags a message draws on.
#[derive(Clone, Copy)]
enum Group {
    None,
    Tests,
    Others,
    Sets,
    Buffer,
    Any,
}

/// A request with words behind the end and bytes behind the size.
pub fn request(random: &mut Random, board: &Board) -> Draft {
    let count = match random.below(100) {
        0..=9 => 0,
        10..=79 => random.between(1, 6),
        80..=97 => random.between(5, 14),
        _ => random.between(10, 40),
    };
    let drawn = any_drawn(random);
    let mut draft = Draft::new(random, board);
    let run = random.one_in(10).then(|| random.below(count + 1));
    let memory_run = random.one_in(12).then(|| random.below(count + 1));
    for index in 0..=count {
        if Some(index) == run {
            let most = random.pick(&[8, 12, 60, 200]);
            let length = random.between(2, most);
            push_run(random, board, &mut draft, drawn, length);
        }
        if Some(index) == memory_run {
            draft.push_memory_run(random);
        }
        if index < count {
            let tag = tag(random, board, drawn);
            let size = value_size(random, tag);
            draft.push(random, board, tag.id, size);
        }
    }
    draft.close(random);
    if random.one_in(500) {
        stretch(random, &mut draft);
    }
    draft
}

/// A request with as many tags as fit, or nearly.
pub fn long_request(random: &mut Random, board: &Board) -> Draft {
    let count = random.pick(&[5_459, 5_460, 5_461, 2_000]);
    let drawn = any_drawn(random);
    let mut draft = Draft::new(random, board);
    if random.one_in(3) {
        push_run(random, board, &mut draft, drawn, count);
    } else {
        let empty = random.below(3) > 0;
        for _ in 0..count {
            let tag = tag(random, board, drawn);
            let size = if empty { 0 } else { tag.request };
            draft.push(random, board, tag.id, size);
        }
    }
    draft.close(random);
    if random.one_in(2) {
        stretch(random, &mut draft);
    }
    draft
}

fn any_drawn(random: &mut Random) -> Drawn {
    let kinds = [Group::None, Group::Tests, Group::Others, Group::Sets, Group::Buffer, Group::Any];
    Drawn { group: random.pick(&kinds), memory: random.pick(&[1, 1, 6]) }
}

/// Tags of one value size in a row, of one id or all of them behind the known ones, and now and then
/// another tag or another size in their midst.
fn push_run(random: &mut Random, board: &Board, draft: &mut Draft, drawn: Drawn, length: u32) {
    let beyond = random.between(known::BEYOND, u32::MAX);
    let (id, size) = match random.below(4) {
        0 => {
            let tag = tag(random, board, drawn);
            (tag.id, value_size(random, tag))
        }
        1 => (known::stranger(random), random.below(20)),
        _ => (beyond, random.pick(&[0, 0, 1, 3, 4, 5, 8, 12, 16])),
    };
    let alike = random.one_in(2);
    let other = random.one_in(2).then(|| random.below(length));
    for index in 0..length {
        if Some(index) == other {
            let tag = tag(random, board, drawn);
            let id = if random.one_in(2) { tag.id } else { id };
            let size = value_size(random, tag);
            draft.push(random, board, id, size);
        } else if alike || id < known::BEYOND {
            draft.push(random, board, id, size);
        } else {
            let id = random.between(known::BEYOND, u32::MAX);
            draft.push(random, board, id, size);
        }
    }
}

/// Lends about as many bytes as the longest message has, with a size about there, and often a last
/// tag that reaches as far.
fn stretch(random: &mut Random, draft: &mut Draft) {
    draft.bytes.resize(random.between(65_536, 65_560) as usize, 0);
    let size = match random.below(4) {
        0 => random.between(65_528, 65_544),
        1 => LONGEST as u32,
        _ => 65_528 + 4 * random.below(5),
    };
    put_word(&mut draft.bytes, 0, size);
    let value = draft.end + TAG_HEADER;
    let short = if random.one_in(2) { 0 } else { random.below(20) };
    let last = LONGEST - short as usize;
    if value <= last && random.one_in(2) {
        draft.bytes[draft.end..].fill(0);
        draft.tags.push(draft.end);
        put_word(&mut draft.bytes, draft.end, known::stranger(random));
        put_word(&mut draft.bytes, draft.end + 4, (last - value) as u32);
        draft.end = last.next_multiple_of(4);
    }
}

fn outside_group(random: &mut Random, drawn: Drawn) -> Known {
    if random.below(8) < drawn.memory {
        random.pick(&MEMORY)
    } else {
        random.pick(&OUTSIDE_GROUP)
    }
}

fn tag(random: &mut Random, board: &Board, drawn: Drawn) -> Known {
    match random.below(12) {
        0 => {
            let id = known::stranger(random);
            return known::of(id).copied().unwrap_or(Known { id, request: 0, answer: 8 });
        }
        1 => {
            let answer = board.facts.characters.min(256);
            return Known { id: known::COMMAND_LINE, request: 0, answer };
        }
        2..=5 => return outside_group(random, drawn),
        _ => {}
    }
    match (drawn.group, random.below(8)) {
        (Group::None, _) => outside_group(random, drawn),
        (Group::Tests, _) | (Group::Any, 0..=1) => random.pick(&TESTS),
        (Group::Buffer, 0..=3) | (Group::Buffer | Group::Others | Group::Any, 7) => {
            random.pick(&BUFFER_TAGS)
        }
        (Group::Sets, _) | (_, 2..=4) => random.pick(&SETS),
        _ => random.pick(&GETS),
    }
}

/// At least the request's length: exact, short of the answer, or longer.
fn value_size(random: &mut Random, tag: Known) -> u32 {
    let most = tag.request.max(tag.answer);
    if random.one_in(400) {
        return most + random.below(2_000);
    }
    match random.below(8) {
        0 => tag.request,
        1 => random.between(tag.request, most),
        2 => most + random.below(6),
        3 => tag.request + random.below(24),
        _ => most,
    }
}
