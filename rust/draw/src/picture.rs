//! One drawing: a line for each word, with what it is.

use crate::names;
use crate::roles::{self, Role};
use crate::values::value;
use crate::words::{count, hex, word};
use std::io::{self, Write};

/// Lines alike behind a message are drawn once from this many on.
const ALIKE: usize = 4;

/// The tag word of a tag with a value of `size` bytes.
fn tag_word(word: u32, size: usize, reply: bool) -> String {
    let length = (word & 0x7fff_ffff) as usize;
    let text = if names::is_answer(word) {
        let stored = if length > size { format!(", {size} stored") } else { String::new() };
        format!("answer of {}{stored}", count(length))
    } else if reply {
        "not answered".to_string()
    } else {
        "request".to_string()
    };
    format!("  tag word, {text}")
}

fn describe(role: Role, word: u32) -> String {
    match role {
        Role::Size => format!("size {word}"),
        Role::WrongSize(size) => {
            format!("size {word}, wrong, the rest is named as if it were {size}")
        }
        Role::Code => format!("code, {}", names::code(word)),
        Role::Id => format!("tag, {}", names::tag(word)),
        Role::ValueSize => format!("  value size {word}"),
        Role::TagWord(size, reply) => tag_word(word, size, reply),
        Role::Value { tag, answered, index, count } => value(tag, answered, index, count, word),
        Role::End => "end".to_string(),
        Role::Padding => "padding".to_string(),
        Role::Fault => format!("tag, {}, runs over", names::tag(word)),
        Role::Unread => "not read".to_string(),
        Role::Behind => "behind the message".to_string(),
    }
}

/// Bytes of a last word that is not whole, in the order of the file.
fn loose(out: &mut impl Write, bytes: &[u8], at: usize) -> io::Result<()> {
    writeln!(out, "{at:6}  {:<10} no whole word", hex(&bytes[at..]))
}

/// How many words from here on are alike and only fill up.
fn alike(bytes: &[u8], roles: &[Role], index: usize) -> usize {
    if !matches!(roles[index], Role::Padding | Role::Behind | Role::Unread) {
        return 1;
    }
    (index..roles.len())
        .take_while(|&i| roles[i] == roles[index] && word(bytes, i * 4) == word(bytes, index * 4))
        .count()
}

/// A line of a word that is marked by `*` or `!`, in colour, or by a space.
fn line(
    out: &mut impl Write,
    at: usize,
    word: u32,
    mark: char,
    text: &str,
    colour: bool,
) -> io::Result<()> {
    let (on, off) = match mark {
        '*' if colour => ("\x1b[1;33m", "\x1b[0m"),
        '!' if colour => ("\x1b[1;31m", "\x1b[0m"),
        _ => ("", ""),
    };
    writeln!(out, "{on}{at:6}  {word:08x} {mark} {text}{off}")
}

/// Draws the bytes; words that are not as they were before are marked, and the place of a fault.
pub fn draw(
    out: &mut impl Write,
    bytes: &[u8],
    before: &[u8],
    fault: Option<usize>,
    colour: bool,
) -> io::Result<()> {
    let count = bytes.len() / 4;
    let roles = roles::of(bytes);
    let mut index = 0;
    while index < count {
        let at = index * 4;
        let now = word(bytes, at);
        let mark = match fault {
            Some(place) if place == at => '!',
            _ if now != word(before, at) => '*',
            _ => ' ',
        };
        line(out, at, now, mark, &describe(roles[index], now), colour)?;
        let same = alike(bytes, &roles, index);
        index += 1;
        if same > ALIKE {
            writeln!(out, "     .. {} more words like it", same - 1)?;
            index += same - 1;
        }
    }
    if bytes.is_empty() {
        writeln!(out, "        no words")?;
    }
    if count * 4 < bytes.len() {
        loose(out, bytes, count * 4)?;
    }
    Ok(())
}
