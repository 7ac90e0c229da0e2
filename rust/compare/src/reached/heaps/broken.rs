//! What breaks a rule of the heap and its blocks.

use interface::{Block, Board, Span};

const FROM_0: &str = "a heap from address 0";
const NONE_AT_0: &str = "a heap of no bytes at address 0";
const UP_TO_HIGHEST: &str = "a heap up to 2^32";
const PAST_HIGHEST: &str = "a heap past 2^32";
const FIRST_BYTE: &str = "a heap over the region's first byte";
const LAST_BYTE: &str = "a heap over the region's last byte";
const INSIDE_REGION: &str = "a heap inside the region";
const AROUND_REGION: &str = "a heap around the region";
const NO_BYTES: &str = "a block of no bytes";
const BYTE_PAST: &str = "a block one byte past the heap";
const PAST_IN_32_BITS: &str = "a block past the heap, but inside in 32 bits";
const BYTE_BEFORE: &str = "a block one byte before the heap";
const NOT_ALIGNED: &str = "a block not aligned";
const NO_BIT: &str = "a block of alignment 0";
const MORE_BITS: &str = "a block of an alignment of more bits";
const RISING: &str = "blocks sharing a byte, the lower one in the lower place";
const FALLING: &str = "blocks sharing a byte, the lower one in the higher place";
const ALIKE: &str = "blocks on the same bytes";
const INSIDE_BLOCK: &str = "a block inside another";

/// Those that a run must reach; there are others.
pub const NAMES: [&str; 19] = [
    FROM_0,
    NONE_AT_0,
    UP_TO_HIGHEST,
    PAST_HIGHEST,
    FIRST_BYTE,
    LAST_BYTE,
    INSIDE_REGION,
    AROUND_REGION,
    NO_BYTES,
    BYTE_PAST,
    PAST_IN_32_BITS,
    BYTE_BEFORE,
    NOT_ALIGNED,
    NO_BIT,
    MORE_BITS,
    RISING,
    FALLING,
    ALIKE,
    INSIDE_BLOCK,
];

/// What breaks a rule, once for each heap, block or pair of blocks that it is true of.
pub fn all(board: &Board) -> Vec<&'static str> {
    let Board { heap, blocks, display, .. } = board;
    let mut found = Vec::new();
    found.extend(base(heap));
    found.extend(end(heap));
    found.extend(over_region(heap, &display.region));
    let taken: Vec<&Block> = blocks.iter().filter(|block| block.taken).collect();
    for (index, block) in taken.iter().enumerate() {
        found.extend((block.size == 0).then_some(NO_BYTES));
        found.extend(past(&block.span(), heap));
        found.extend(before(&block.span(), heap));
        found.extend(alignment(block));
        found.extend(taken[..index].iter().filter_map(|other| pair(&other.span(), &block.span())));
    }
    found
}

/// How many bytes lie in both.
fn shared(one: &Span, other: &Span) -> u64 {
    one.end().min(other.end()).saturating_sub(one.base.max(other.base).into())
}

fn base(heap: &Span) -> Option<&'static str> {
    (heap.base == 0).then_some(if heap.size == 0 { NONE_AT_0 } else { FROM_0 })
}

fn end(heap: &Span) -> Option<&'static str> {
    match heap.end().checked_sub(1 << 32) {
        None => None,
        Some(0) => Some(UP_TO_HIGHEST),
        Some(_) => Some(PAST_HIGHEST),
    }
}

fn over_region(heap: &Span, region: &Span) -> Option<&'static str> {
    match shared(heap, region) {
        0 => None,
        1 if heap.end() == u64::from(region.base) + 1 => Some(FIRST_BYTE),
        1 if region.end() == u64::from(heap.base) + 1 => Some(LAST_BYTE),
        bytes if bytes == heap.size.into() => Some(INSIDE_REGION),
        bytes if bytes == region.size.into() => Some(AROUND_REGION),
        _ => Some("a heap over an end of the region"),
    }
}

fn past(block: &Span, heap: &Span) -> Option<&'static str> {
    match block.end().checked_sub(heap.end()) {
        None | Some(0) => None,
        Some(1) => Some(BYTE_PAST),
        _ if u64::from(block.end() as u32) <= heap.end() => Some(PAST_IN_32_BITS),
        _ => Some("a block past the heap"),
    }
}

fn before(block: &Span, heap: &Span) -> Option<&'static str> {
    match heap.base.checked_sub(block.base) {
        None | Some(0) => None,
        Some(1) => Some(BYTE_BEFORE),
        _ => Some("a block before the heap"),
    }
}

fn alignment(block: &Block) -> Option<&'static str> {
    let is_multiple = block.base.checked_rem(block.alignment) == Some(0);
    match block.alignment.count_ones() {
        0 => Some(NO_BIT),
        1 if is_multiple => None,
        1 => Some(NOT_ALIGNED),
        _ if is_multiple => Some(MORE_BITS),
        _ => Some("a block not aligned to an alignment of more bits"),
    }
}

/// What two blocks in rising places break.
fn pair(one: &Span, other: &Span) -> Option<&'static str> {
    match shared(one, other) {
        0 => None,
        _ if one == other => Some(ALIKE),
        1 if one.end() == u64::from(other.base) + 1 => Some(RISING),
        1 if other.end() == u64::from(one.base) + 1 => Some(FALLING),
        bytes if bytes == one.size.min(other.size).into() => Some(INSIDE_BLOCK),
        _ => Some("blocks sharing bytes"),
    }
}
