//! Messages that are damaged, answered, or rubbish.

use crate::known::{self, OUTSIDE_GROUP};
use crate::messages::{padded, Draft};
use crate::random::Random;
use crate::walk::{put_word, word, HEADER, SHORTEST};

/// Damages the message in one way; what results may still be well formed.
pub fn damage(random: &mut Random, draft: &mut Draft) {
    let tag = (!draft.tags.is_empty()).then(|| random.pick(&draft.tags));
    let size = word(&draft.bytes, 0);
    match (random.below(9), tag) {
        (0, _) => damage_size(random, draft, size),
        (1, _) => {
            let code = random.pick(&[1, 0x100, 0x8000_0000, 0x8000_0001, 0x8000_0002, u32::MAX]);
            put_word(&mut draft.bytes, 4, code);
        }
        (2, _) => put_word(&mut draft.bytes, 0, draft.end as u32),
        (3, Some(at)) => {
            let within = at as u32 + 4 * random.below(6);
            put_word(&mut draft.bytes, 0, within.min(size));
        }
        (4, Some(at)) => {
            let own = word(&draft.bytes, at + 4);
            put_word(&mut draft.bytes, at + 4, far_too_large(random, own));
        }
        (5, Some(at)) => {
            let left = size.wrapping_sub(at as u32 + 12);
            let over = left.wrapping_add(random.below(8)).wrapping_sub(3);
            put_word(&mut draft.bytes, at + 4, over);
        }
        (6, Some(at)) => shorten(random, draft, at),
        (7, _) => {
            let left = random.below(draft.bytes.len() as u32 + 1);
            draft.bytes.truncate(left as usize);
        }
        _ => {
            let at = 4 * random.below(draft.bytes.len() as u32 / 4) as usize;
            let number = random.number();
            put_word(&mut draft.bytes, at, number);
        }
    }
}

/// A value size that no message holds, or that is this one once high bits are lost.
fn far_too_large(random: &mut Random, own: u32) -> u32 {
    match random.below(4) {
        0 => random.pick(&[0x7FFF_FFFF, 0x8000_0000, 0x8000_0001, 0xFFFF_0000, 0x1_0000]),
        1 => own | 1 << random.between(16, 31),
        _ => u32::MAX - random.below(24),
    }
}

fn damage_size(random: &mut Random, draft: &mut Draft, size: u32) {
    let lent = draft.bytes.len() as u32;
    let wrong = match random.below(7) {
        0 => random.pick(&[0, 4, 8, 11, 12, 14, 16, 65_536, 65_540]),
        1 => size + random.between(1, 8),
        2 => size - random.between(1, 8),
        3 => lent + random.below(5),
        4 => 4 * random.below(size / 4 + 2),
        5 => size | 1 << random.between(16, 31),
        _ => random.number(),
    };
    put_word(&mut draft.bytes, 0, wrong);
}

/// Makes a tag's value shorter, often by one byte less than its request has.
fn shorten(random: &mut Random, draft: &mut Draft, at: usize) {
    let size = word(&draft.bytes, at + 4);
    let request = known::of(word(&draft.bytes, at)).map_or(0, |known| known.request);
    let shorter = match request {
        1.. if request <= size && random.one_in(2) => request - 1,
        _ => random.below(size.min(8) + 1),
    };
    let value = at + 12;
    draft.bytes.drain(value + padded(shorter)..value + padded(size));
    put_word(&mut draft.bytes, at + 4, shorter);
    let fewer = (padded(size) - padded(shorter)) as u32;
    let whole = word(&draft.bytes, 0).wrapping_sub(fewer);
    put_word(&mut draft.bytes, 0, whole);
}

/// Makes the message a reply, more or less: its code, and the tag words with any length.
pub fn make_reply(random: &mut Random, draft: &mut Draft) {
    let code = match random.below(10) {
        0 => random.number(),
        1..=2 => 0x8000_0001,
        _ => 0x8000_0000,
    };
    put_word(&mut draft.bytes, 4, code);
    for at in draft.tags.clone() {
        let size = word(&draft.bytes, at + 4);
        let length = match random.below(6) {
            0 => size.wrapping_add(random.below(5)).wrapping_sub(2),
            1 => random.number(),
            2 => random.below(12),
            _ => size,
        };
        let answered = random.below(8) > 0;
        let tag_word = length & 0x7FFF_FFFF | u32::from(answered) << 31;
        put_word(&mut draft.bytes, at + 8, tag_word);
        if random.one_in(3) {
            let id = word(&draft.bytes, HEADER);
            put_word(&mut draft.bytes, at, id);
        }
    }
}

/// Bytes without order, or with a size word that fits and words that are mostly small.
pub fn rubbish(random: &mut Random) -> Vec<u8> {
    let length = if random.one_in(4) { random.below(16) } else { random.below(120) };
    let mut bytes = random.bytes(length as usize);
    if random.one_in(4) || bytes.len() < SHORTEST {
        return bytes;
    }
    for at in (0..bytes.len() - 3).step_by(4) {
        let small = match random.below(6) {
            0 => 0,
            1..=2 => random.below(20),
            3 => random.pick(&OUTSIDE_GROUP).id,
            4 => random.number(),
            _ => continue,
        };
        put_word(&mut bytes, at, small);
    }
    put_word(&mut bytes, 0, length & !3);
    let code = random.pick(&[0, 0, 0x8000_0000, 0x8000_0001, 1]);
    put_word(&mut bytes, 4, code);
    bytes
}
