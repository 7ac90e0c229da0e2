//! The outcome of serving a file, in words.

use crate::file::{Sent, MOST};
use crate::words::word;

/// Fewer bytes than a message has.
pub const TOO_FEW: u32 = 1;
pub const BAD_SIZE: u32 = 2;

/// Whether an outcome is a fault, with a place in the message.
pub fn is_fault(outcome: u32) -> bool {
    matches!(outcome, 4..=6)
}

/// Whether an outcome leaves the message as it was.
pub fn is_refusal(outcome: u32) -> bool {
    matches!(outcome, TOO_FEW | BAD_SIZE | 3 | 14)
}

/// What is wrong with the size of a file, or with its size word.
fn bad_size(sent: &Sent) -> String {
    if sent.more {
        return format!("refused, the file has more than {MOST} bytes");
    }
    let (size, length) = (word(&sent.bytes, 0) as usize, sent.bytes.len());
    if size < 12 {
        format!("refused, the size word {size} is below 12")
    } else if size > MOST {
        format!("refused, the size word {size} is above {MOST}")
    } else if size % 4 != 0 {
        format!("refused, the size word {size} is no multiple of 4")
    } else {
        format!("refused, the size word is {size}, the file has {length} bytes")
    }
}

fn meaning(outcome: u32, sent: &Sent) -> String {
    let text = match outcome {
        0 => "done",
        TOO_FEW => "refused, the file has fewer than 12 bytes",
        BAD_SIZE => return bad_size(sent),
        3 => "refused, the code word is not 0, so this is no request",
        4 => "fault, the tags reach the size without an end word",
        5 => "fault, a tag runs over the size of the message",
        6 => "fault, a tag's value is shorter than its request",
        14 => "refused, the board record is not valid",
        _ => "no outcome of serving",
    };
    text.to_string()
}

/// The outcome in words, with its number and place.
pub fn line(outcome: u32, place: usize, sent: &Sent) -> String {
    format!("Outcome {outcome}, place {place}: {}", meaning(outcome, sent))
}

#[cfg(test)]
mod tests {
    use super::*;

    /// The cause in a file of this length with this size word.
    fn cause(size: u32, length: usize) -> String {
        let mut bytes = vec![0; length.min(MOST)];
        bytes[..4].copy_from_slice(&size.to_le_bytes());
        bad_size(&Sent { bytes, more: length > MOST })
    }

    #[test]
    fn a_bad_size_has_its_cause() {
        assert_eq!(cause(8, 32), "refused, the size word 8 is below 12");
        assert_eq!(cause(14, 32), "refused, the size word 14 is no multiple of 4");
        assert_eq!(cause(65_540, 32), "refused, the size word 65540 is above 65536");
        assert_eq!(cause(64, 32), "refused, the size word is 64, the file has 32 bytes");
        assert_eq!(cause(16, 65_540), "refused, the file has more than 65536 bytes");
    }

    #[test]
    fn the_longest_line_has_80_columns_at_most() {
        let mut bytes = vec![0; MOST - 1];
        bytes[..4].copy_from_slice(&(MOST as u32).to_le_bytes());
        assert!(line(BAD_SIZE, 0, &Sent { bytes, more: false }).len() <= 80);
    }
}
