//! The messages that are timed.

use crate::memory;
use interface::Board;

/// A message, how many tags it has, the record that it is first served on, and the outcome that
/// serving it has.
pub struct Request {
    pub name: &'static str,
    pub tags: usize,
    pub bytes: Vec<u8>,
    pub board: Board,
    pub outcome: u32,
}

/// A finished message of these tags for the bench record: size, code 0, the tags, the end word,
/// zeros up to a multiple of 16.
pub fn request(name: &'static str, tags: impl Iterator<Item = Vec<u32>>) -> Request {
    let mut count = 0;
    let mut words = vec![0, 0];
    words.extend(tags.inspect(|_| count += 1).flatten());
    words.push(0);
    words.resize(words.len().next_multiple_of(4), 0);
    words[0] = words.len() as u32 * 4;
    let bytes = words.iter().flat_map(|word| word.to_le_bytes()).collect();
    Request { name, tags: count, bytes, board: vcmailbox::bench(), outcome: 0 }
}

/// Set rate of clocks 1 to 14 in turn, a different rate each time.
fn set_rate(i: u32) -> Vec<u32> {
    vec![0x0003_8002, 8, 0, i % 14 + 1, 100_000_000 + i * 500_000]
}

/// One tag of each kind in turn: facts, power, clocks, voltages, temperature, the frame buffer.
fn mixed(i: u32) -> Vec<u32> {
    match i % 10 {
        0 => vec![0x0000_0001, 4, 0, 0],
        1 => vec![0x0001_0003, 8, 0, 0, 0],
        2 => vec![0x0002_8001, 8, 0, i % 11, i],
        3 => vec![0x0003_0002, 8, 0, i % 15, 0],
        4 => vec![0x0003_8002, 8, 0, i % 15, i * 1_000_000],
        5 => vec![0x0003_8003, 8, 0, i % 5, i],
        6 => vec![0x0003_0005, 8, 0, i % 5, 0],
        7 => vec![0x0003_0006, 8, 0, 0, 0],
        8 => vec![0x0004_0003, 8, 0, 0, 0],
        _ => vec![0x0004_8005, 4, 0, 16],
    }
}

fn screen() -> Vec<Vec<u32>> {
    vec![
        vec![0x0004_8003, 8, 0, 640, 480],
        vec![0x0004_8004, 8, 0, 640, 480],
        vec![0x0004_8005, 4, 0, 24],
    ]
}

fn mac() -> Vec<u32> {
    vec![0x0001_0003, 8, 0, 0, 0]
}

/// The request of a MAC address with a code word that is not 0: refused with outcome 3.
fn refused() -> Request {
    let mut refused = request("a refusal", [mac()].into_iter());
    refused.bytes[4] = 1;
    Request { outcome: 3, ..refused }
}

/// No tags on a record whose 32 places are taken: beside the bench record, what the check of blocks
/// takes.
fn no_tags_32_blocks() -> Request {
    Request { board: memory::record(32), ..request("no tags, 32 blocks", [].into_iter()) }
}

pub fn all() -> Vec<Request> {
    vec![
        request("a screen's settings", screen().into_iter()),
        request("set rate", (0..3_276).map(set_rate)),
        request("firmware, no value", (0..5_460).map(|_| vec![0x0000_0001, 0, 0])),
        request("unknown, no value", (0..5_460).map(|_| vec![0x7fff_ffff, 0, 0])),
        request("mixed", (0..3_408).map(mixed)),
        request("a MAC address alone", [mac()].into_iter()),
        request("no tags", [].into_iter()),
        refused(),
        no_tags_32_blocks(),
        memory::by_turns("memory, no blocks", 0),
        memory::by_turns("memory, 31 blocks", 31),
    ]
}
