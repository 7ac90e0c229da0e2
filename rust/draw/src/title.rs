//! The first line of a drawing: the file's name, and how many bytes it has.

use crate::file::{Sent, MOST};
use crate::words::count;
use std::ffi::OsStr;

/// No line of a drawing is longer.
const COLUMNS: usize = 80;

/// A file's name with a question mark for whatever is no letter, digit, sign or space.
pub fn printable(path: &OsStr) -> String {
    let shown = |c: char| c.is_alphanumeric() || c.is_ascii_graphic() || c == ' ';
    path.to_string_lossy().chars().map(|c| if shown(c) { c } else { '?' }).collect()
}

/// The first line; of a name too long for it, the last part.
pub fn title(path: &OsStr, sent: &Sent) -> String {
    let length =
        if sent.more { format!("more than {MOST} bytes") } else { count(sent.bytes.len()) };
    let name = printable(path);
    let (characters, room) = (name.chars().count(), COLUMNS - length.len() - 2);
    if characters <= room {
        return format!("{name}: {length}");
    }
    let last: String = name.chars().skip(characters - room + 3).collect();
    format!("...{last}: {length}")
}

#[cfg(test)]
mod tests {
    use super::*;
    use std::os::unix::ffi::OsStrExt;

    #[test]
    fn a_name_is_shown_without_control_characters() {
        assert_eq!(printable(OsStr::from_bytes(b"a\x1b[31m\n\xff b.msg")), "a?[31m?? b.msg");
        assert_eq!(printable(OsStr::new("größe.msg")), "größe.msg");
    }

    #[test]
    fn a_long_name_keeps_its_last_part() {
        let sent = Sent { bytes: vec![0], more: false };
        let title = |length: usize| title(OsStr::new(&"a".repeat(length)), &sent);
        assert_eq!(title(72), format!("{}: 1 byte", "a".repeat(72)));
        assert_eq!(title(73), format!("...{}: 1 byte", "a".repeat(69)));
        assert_eq!(title(300).len(), COLUMNS);
    }
}
