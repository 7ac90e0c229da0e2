//! A word of a tag's value, shown in the way the tag means it.

use crate::words::hex;

enum Form {
    Number,
    Signed,
    /// Addresses, masks, and numbers that are no quantities.
    Hex,
    /// Bytes in their order.
    Bytes,
    Text,
}

/// What a voltage tag answers for a voltage that is not there.
const NO_VOLTAGE: u32 = 0x8000_0000;

/// How the word of this index in a value of this tag, answered or not, is meant.
fn form(tag: u32, answered: bool, index: usize, word: u32) -> Form {
    match (tag, index) {
        // The MAC address, and the command line.
        (0x0001_0003, _) => Form::Bytes,
        (0x0005_0001, _) => Form::Text,
        // The board revision, the board serial and the DMA channels.
        (0x0001_0002 | 0x0001_0004 | 0x0006_0001, _) => Form::Hex,
        // ARM memory, VC memory, the frame buffer: an address, and a size behind it.
        (0x0001_0005 | 0x0001_0006 | 0x0004_0001, 0) => Form::Hex,
        // Behind a voltage's id the voltage, or its maximum and minimum as offsets.
        (0x0003_0003 | 0x0003_8003 | 0x0003_0005 | 0x0003_0008, 1) if word == NO_VOLTAGE => {
            Form::Hex
        }
        (0x0003_0005 | 0x0003_0008, 1) => Form::Signed,
        // The flags of memory, and the address that locking it answers.
        (0x0003_000c, 2) => Form::Hex,
        (0x0003_000d, 0) if answered => Form::Hex,
        _ => Form::Number,
    }
}

/// What a word of a memory tag's value says.
fn note(tag: u32, answered: bool, index: usize, word: u32) -> Option<&'static str> {
    let note = match (tag, answered, index, word) {
        (0x0003_000c, false, 0, _) => "size",
        (0x0003_000c, true, 0, 0) => "refused",
        (0x0003_000c, true, 0, _) => "handle",
        (0x0003_000c, _, 1, _) => "alignment",
        (0x0003_000c, _, 2, _) => "flags",
        (0x0003_000d..=0x0003_000f, false, 0, _) => "handle",
        (0x0003_000d, true, 0, 0) => "unknown handle",
        (0x0003_000d, true, 0, _) => "address",
        (0x0003_000e | 0x0003_000f, true, 0, 0) => "done",
        (0x0003_000e | 0x0003_000f, true, 0, 1) => "unknown handle",
        _ => return None,
    };
    Some(note)
}

/// Characters, with a dot for each byte that is none.
fn text(bytes: &[u8]) -> String {
    let shown = |byte: u8| byte.is_ascii_graphic() || byte == b' ';
    bytes.iter().map(|&byte| if shown(byte) { byte as char } else { '.' }).collect()
}

/// The word of this index in a value of this tag, answered or not; its first `count` bytes are the
/// value's, the others padding.
pub fn value(tag: u32, answered: bool, index: usize, count: usize, word: u32) -> String {
    let bytes = word.to_le_bytes();
    let (own, padding) = bytes.split_at(count);
    let shown = match form(tag, answered, index, word) {
        Form::Text => format!("\"{}\"", text(own)),
        Form::Number if padding.is_empty() => format!("{word}"),
        Form::Signed if padding.is_empty() => format!("{}", word as i32),
        Form::Hex if padding.is_empty() => format!("{word:#x}"),
        _ => format!("bytes {}", hex(own)),
    };
    if !padding.is_empty() {
        return format!("  value {shown}, padding {}", hex(padding));
    }
    match note(tag, answered, index, word) {
        Some(note) => format!("  value {shown}, {note}"),
        None => format!("  value {shown}"),
    }
}

#[cfg(test)]
mod tests {
    use super::value;

    #[test]
    fn a_value_is_shown_as_its_tag_means_it() {
        assert_eq!(value(0x0003_0002, true, 1, 4, 600_000_000), "  value 600000000");
        assert_eq!(value(0x0003_0005, true, 1, 4, 0xffff_ffff), "  value -1");
        assert_eq!(value(0x0003_0005, true, 1, 4, 0x8000_0000), "  value 0x80000000");
        assert_eq!(value(0x0003_0005, true, 0, 4, 0xffff_ffff), "  value 4294967295");
        assert_eq!(value(0x0004_0001, true, 0, 4, 0x3c00_0000), "  value 0x3c000000");
        assert_eq!(value(0x0004_0001, true, 1, 4, 921_600), "  value 921600");
        assert_eq!(value(0x0001_0003, true, 0, 4, 0x4deb_27b8), "  value bytes b8 27 eb 4d");
        assert_eq!(value(0x0005_0001, true, 0, 4, 0x0a6f_6f72), "  value \"roo.\"");
    }

    /// The first word of a memory tag's value, as sent and as answered.
    fn first(tag: u32, sent: u32, answer: u32) -> [String; 2] {
        [value(tag, false, 0, 4, sent), value(tag, true, 0, 4, answer)]
    }

    #[test]
    fn the_words_of_memory_tags_are_named() {
        assert_eq!(first(0x0003_000c, 4_096, 1), ["  value 4096, size", "  value 1, handle"]);
        assert_eq!(first(0x0003_000c, 0, 0), ["  value 0, size", "  value 0, refused"]);
        assert_eq!(value(0x0003_000c, false, 1, 4, 16), "  value 16, alignment");
        assert_eq!(value(0x0003_000c, true, 2, 4, 12), "  value 0xc, flags");
        let [sent, answer] = first(0x0003_000d, 1, 0x3c80_0000);
        assert_eq!([&*sent, &*answer], ["  value 1, handle", "  value 0x3c800000, address"]);
        assert_eq!(first(0x0003_000d, 2, 0)[1], "  value 0x0, unknown handle");
        assert_eq!(first(0x0003_000e, 1, 0), ["  value 1, handle", "  value 0, done"]);
        assert_eq!(first(0x0003_000f, 2, 1), ["  value 2, handle", "  value 1, unknown handle"]);
        assert_eq!(value(0x0003_000f, true, 1, 4, 7), "  value 7");
    }

    #[test]
    fn padding_is_told_from_the_value() {
        assert_eq!(
            value(0x0001_0003, true, 1, 2, 0x0201_f691),
            "  value bytes 91 f6, padding 01 02"
        );
        assert_eq!(
            value(0x0001_0004, true, 1, 1, 0x5555_5500),
            "  value bytes 00, padding 55 55 55"
        );
        assert_eq!(value(0x0005_0001, true, 12, 3, 0x0074_6961), "  value \"ait\", padding 00");
    }
}
