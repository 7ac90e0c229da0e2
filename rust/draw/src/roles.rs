//! What each word of a message is.

use crate::names::{is_answer, is_reply};
use crate::outcomes::{BAD_SIZE, TOO_FEW};
use crate::words::word;
use vcmailbox::Listed;

#[derive(Clone, Copy, PartialEq)]
pub enum Role {
    Size,
    /// A size word that is not good, and the size by which the other words are named.
    WrongSize(usize),
    Code,
    /// A tag's id and the size of its value.
    Id,
    ValueSize,
    /// A tag word, with the size of the tag's value, and whether the message is a reply.
    TagWord(usize, bool),
    /// The word of this index in the value of this tag, whether the tag has its answer, and how
    /// many of the word's bytes are the value's.
    Value {
        tag: u32,
        answered: bool,
        index: usize,
        count: usize,
    },
    End,
    /// Behind the end word.
    Padding,
    /// The id of a tag that runs over, and what the walk does not read.
    Fault,
    Unread,
    /// Behind the message.
    Behind,
}

/// The words of a tag.
fn tag(listed: &Listed, reply: bool) -> Vec<Role> {
    let (tag, size) = (listed.id, listed.size as usize);
    let answered = is_answer(listed.word);
    let mut roles = vec![Role::Id, Role::ValueSize, Role::TagWord(size, reply)];
    for index in 0..size.div_ceil(4) {
        let count = (size - index * 4).min(4);
        roles.push(Role::Value { tag, answered, index, count });
    }
    roles
}

/// The words of the tags, and the outcome of the lister behind the last of them.
fn tags(bytes: &[u8]) -> (Vec<Role>, u32) {
    let reply = is_reply(word(bytes, 4));
    let mut roles = Vec::new();
    let mut index = 0;
    loop {
        let listed = vcmailbox::list(bytes, index);
        if listed.outcome != 0 {
            return (roles, listed.outcome);
        }
        roles.extend(tag(&listed, reply));
        index += 1;
    }
}

/// What each of the whole words is, by a size word that is good.
fn by_size(bytes: &[u8]) -> Vec<Role> {
    let count = bytes.len() / 4;
    let size = word(bytes, 0) as usize;
    let mut roles = vec![Role::Size, Role::Code];
    let (tags, outcome) = tags(bytes);
    roles.extend(tags);
    let rest = match outcome {
        5 => {
            roles.extend([Role::Fault, Role::ValueSize]);
            Role::Unread
        }
        11 => {
            roles.push(Role::End);
            Role::Padding
        }
        _ => Role::Behind,
    };
    roles.resize(size / 4, rest);
    roles.resize(count, Role::Behind);
    roles
}

/// What each of the whole words of these bytes is. Where the size word is wrong, they are named as if it
/// were the size of all of them.
pub fn of(bytes: &[u8]) -> Vec<Role> {
    let count = bytes.len() / 4;
    match vcmailbox::list(bytes, 0).outcome {
        TOO_FEW => [Role::Size, Role::Code][..count].to_vec(),
        BAD_SIZE => {
            let mut mended = bytes.to_vec();
            mended[..4].copy_from_slice(&(count as u32 * 4).to_le_bytes());
            let mut roles = by_size(&mended);
            roles[0] = Role::WrongSize(count * 4);
            roles
        }
        _ => by_size(bytes),
    }
}
