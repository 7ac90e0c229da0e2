//! The cases of an allocate.

use super::super::{Reached, Thing};
use crate::memory::{align, lowest, Gap, Memory, Words};
use interface::{Block, Span};

/// A request, and the memory before it.
pub struct Asked {
    blocks: [Block; 32],
    heap: Span,
    gaps: Vec<Gap>,
    size: u32,
    alignment: u32,
}

type Refused = (&'static str, fn(&Asked) -> bool);

/// Each is the only reason where it is one.
const REFUSED: [Refused; 5] = [
    ("refused for a size of 0", |asked| asked.size == 0 && asked.one_bit() && asked.has_place()),
    ("refused for an alignment of no bit", |asked| asked.alignment == 0 && asked.fits_at(1)),
    ("refused for an alignment of more bits", |asked| {
        asked.alignment.count_ones() > 1 && asked.fits_at(1)
    }),
    ("refused for the places", |asked| {
        !asked.has_place() && lowest(&asked.gaps, asked.size, asked.alignment).is_some()
    }),
    ("refused for the gaps", Asked::lacks_gap),
];

/// Of those that nothing but a gap is missing for.
const NO_GAP: [Refused; 6] = [
    ("refused for the gaps, with enough bytes in all", |asked| {
        asked.gaps.iter().map(length).sum::<u64>() >= asked.size.into()
    }),
    ("refused for the gaps, the largest one byte short", |asked| {
        let most = asked.gaps.iter().map(|gap| asked.room(gap)).max();
        most.is_some_and(|most| most > 0 && most + 1 == asked.size.into())
    }),
    ("refused for the gaps, one large enough but for the alignment", |asked| {
        asked.gaps.iter().any(|gap| length(gap) >= asked.size.into())
    }),
    ("refused for the gaps, an end that fits in 32 bits", |asked| {
        let end = |gap: &Gap| align(gap.start, asked.alignment) + u64::from(asked.size);
        asked.gaps.iter().any(|gap| end(gap) >> 32 != 0 && u64::from(end(gap) as u32) <= gap.end)
    }),
    ("refused for the gaps, an aligned address of 2^32", |asked| {
        let address = |gap: &Gap| align(gap.start, asked.alignment);
        asked.gaps.iter().any(|gap| length(gap) > 0 && address(gap) >> 32 != 0)
    }),
    ("refused for the gaps, more than the heap", |asked| asked.size > asked.heap.size),
];

type Granted = (&'static str, fn(&Asked, &Given) -> bool);

/// The place and the block given, and the gap that it lies in.
struct Given {
    place: usize,
    span: Span,
    index: usize,
    gap: Gap,
}

const GRANTED: [Granted; 17] = [
    ("granted", |_, _| true),
    ("granted in a heap without blocks", |asked, _| asked.gaps.len() == 1),
    ("granted, filling the gap between two blocks", |asked, given| {
        given.fills() && given.index > 0 && given.index < asked.last()
    }),
    ("granted, filling the gap before the first block", |asked, given| {
        given.fills() && given.index == 0 && asked.last() > 0
    }),
    ("granted, filling the gap behind the last block", |asked, given| {
        given.fills() && given.index > 0 && given.index == asked.last()
    }),
    ("granted, one byte less than the gap between two blocks", |asked, given| {
        let left = length(&given.gap) - u64::from(asked.size);
        left == 1 && given.index > 0 && given.index < asked.last()
    }),
    ("granted above a gap's start", |_, given| u64::from(given.span.base) > given.gap.start),
    ("granted below a block", |asked, given| given.index < asked.last()),
    ("granted behind the last block", |asked, given| {
        given.index > 0 && given.index == asked.last()
    }),
    ("granted past a gap too small", |asked, given| {
        let small = |gap: &Gap| length(gap) > 0 && length(gap) < asked.size.into();
        asked.gaps[..given.index].iter().any(small)
    }),
    ("granted past a gap large enough but for the alignment", |asked, given| {
        asked.gaps[..given.index].iter().any(|gap| length(gap) >= asked.size.into())
    }),
    ("granted a place above a taken one", |_, given| given.place > 0),
    ("granted a place below a taken one", |asked, given| {
        asked.blocks[given.place..].iter().any(|block| block.taken)
    }),
    ("granted the last place", |_, given| given.place == 31),
    ("granted at an alignment of 2^31", |asked, _| asked.alignment == 1 << 31),
    ("granted up to the last address", |_, given| given.span.end() == u32::MAX.into()),
    ("granted 2^31 bytes or more", |asked, _| asked.size >= 1 << 31),
];

const NO_POWERS: [u32; 4] = [0, 3, 24, u32::MAX];
const MOST_BYTES: &str = "of 0xFFFFFFFF bytes";
const MOST_ALIGNED: &str = "at an alignment of 2^31";
const PLACE_OF_MESSAGE: &str = "granted a place released in the message";
const PLACE_BEFORE: &str = "granted a place released by a message before";
const BYTES_AGAIN: &str = "granted bytes released before";

pub fn kinds() -> impl Iterator<Item = &'static str> {
    let asked = [MOST_BYTES, MOST_ALIGNED];
    let again = [PLACE_OF_MESSAGE, PLACE_BEFORE, BYTES_AGAIN];
    let refused = REFUSED.iter().chain(&NO_GAP).map(|(kind, _)| *kind);
    let granted = GRANTED.iter().map(|(kind, _)| *kind);
    asked.into_iter().chain(again).chain(refused).chain(granted)
}

/// Each power of two, and some that are refused.
pub fn alignments() -> impl Iterator<Item = Thing> {
    (0..32).map(|bit| 1 << bit).chain(NO_POWERS).map(Thing::BlockAlignment)
}

fn length(gap: &Gap) -> u64 {
    gap.end - gap.start
}

impl Asked {
    pub fn of(memory: &Memory, [size, alignment, _]: Words) -> Asked {
        let Memory { heap, blocks } = *memory;
        Asked { blocks, heap, gaps: memory.gaps(), size, alignment }
    }

    fn one_bit(&self) -> bool {
        self.alignment.count_ones() == 1
    }

    fn has_place(&self) -> bool {
        self.blocks.iter().any(|block| !block.taken)
    }

    /// Whether it would be granted at this alignment.
    fn fits_at(&self, alignment: u32) -> bool {
        self.has_place() && lowest(&self.gaps, self.size, alignment).is_some()
    }

    /// Whether nothing but a gap is missing.
    fn lacks_gap(&self) -> bool {
        self.size > 0 && self.one_bit() && self.has_place()
    }

    /// The bytes of a gap from its first aligned address on.
    fn room(&self, gap: &Gap) -> u64 {
        gap.end.saturating_sub(align(gap.start, self.alignment))
    }

    /// The index of the last gap, which is that of no block.
    fn last(&self) -> usize {
        self.gaps.len() - 1
    }
}

impl Given {
    fn fills(&self) -> bool {
        u64::from(self.span.base) == self.gap.start && self.span.end() == self.gap.end
    }
}

impl Reached {
    pub fn count_refused(&mut self, asked: &Asked) {
        self.count_asked(asked);
        let no_gap = if asked.lacks_gap() { &NO_GAP[..] } else { &[] };
        for (kind, holds) in REFUSED.iter().chain(no_gap) {
            self.allocate_if(holds(asked), kind);
        }
    }

    pub fn count_granted(&mut self, asked: &Asked, place: usize, span: Span) {
        self.count_asked(asked);
        let holds = |gap: &Gap| gap.contains(&span.base.into());
        let Some(index) = asked.gaps.iter().position(holds) else { return };
        let given = Given { place, span, index, gap: asked.gaps[index].clone() };
        for (kind, holds) in &GRANTED {
            self.allocate_if(holds(asked, &given), kind);
        }
    }

    fn count_asked(&mut self, asked: &Asked) {
        self.allocate_if(asked.size == u32::MAX, MOST_BYTES);
        self.allocate_if(asked.alignment == 1 << 31, MOST_ALIGNED);
        let is_listed = asked.one_bit() || NO_POWERS.contains(&asked.alignment);
        if is_listed && asked.fits_at(1) {
            self.add(Thing::BlockAlignment(asked.alignment));
        }
    }

    /// Counts a place or bytes that were released; those of the message are given by their bits.
    pub fn count_given_again(&mut self, of_message: u32, place: usize, span: Span) {
        let is_of_message = of_message >> place & 1 == 1;
        let is_again = self.released[place] != Span::NONE;
        self.allocate_if(is_again && is_of_message, PLACE_OF_MESSAGE);
        self.allocate_if(is_again && !is_of_message, PLACE_BEFORE);
        let meets = self.released.iter().any(|released| released.meets(&span));
        self.allocate_if(meets, BYTES_AGAIN);
        self.released[place] = Span::NONE;
    }
}
