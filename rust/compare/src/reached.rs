//! What a run has reached: outcomes, tags answered, cases of the frame buffer group and of memory,
//! kinds of calls.

mod group;
mod heaps;
mod kinds;
mod memory;
mod messages;
mod offsets;

use crate::case::Call;
use crate::known;
use crate::sides::Side;
use crate::walk::{self, word, ANSWERED};
use interface::Span;
use std::collections::{BTreeMap, HashMap};
use std::fmt;

/// Something that a run can reach.
#[derive(Clone, Copy, PartialEq, Eq, PartialOrd, Ord, Hash)]
pub enum Thing {
    /// A function and an outcome of it.
    Outcome(&'static str, u64),
    /// A known tag answered.
    Tag(u32),
    /// A case of the frame buffer group.
    Group(&'static str),
    /// An axis, a kind of virtual offset on it, and what has it: a set, a test or a record.
    Offset(&'static str, &'static str, &'static str),
    /// A tag of memory, and a case of it.
    Memory(&'static str, &'static str),
    /// Whether a record is taken or refused, and for what of its heap and blocks.
    Heap(&'static str, &'static str),
    /// An alignment that was decided on.
    Alignment(u32),
    /// An alignment that decided whether a block was granted.
    BlockAlignment(u32),
    /// A command line of this length answered.
    Line(u32),
    /// An address, modulo 16, at which a message was served.
    Address(usize),
    /// A kind of call or message.
    Kind(&'static str),
}

impl fmt::Display for Thing {
    fn fmt(&self, to: &mut fmt::Formatter) -> fmt::Result {
        match self {
            Thing::Outcome(function, outcome) => write!(to, "{function} gives {outcome}"),
            Thing::Tag(id) => write!(to, "tag {id:08x} answered"),
            Thing::Group(case) => write!(to, "group {case}"),
            Thing::Offset(axis, kind, asked) => write!(to, "{axis} offset {kind}, {asked}"),
            Thing::Memory(tag, case) => write!(to, "memory: {tag} {case}"),
            Thing::Heap(taken, name) => write!(to, "record {taken} with {name}"),
            Thing::Alignment(alignment) => write!(to, "group with alignment {alignment}"),
            Thing::BlockAlignment(alignment) => write!(to, "block with alignment {alignment}"),
            Thing::Line(length) => write!(to, "command line of {length} answered"),
            Thing::Address(rest) => write!(to, "message at an address of {rest} modulo 16"),
            Thing::Kind(kind) => write!(to, "{kind}"),
        }
    }
}

/// The outcomes that each function can give.
const OUTCOMES: [(&str, &[u64]); 7] = [
    ("serve", &[0, 1, 2, 3, 4, 5, 6, 14]),
    ("start", &[0, 7]),
    ("add", &[0, 7, 8, 9]),
    ("finish", &[0, 7, 9]),
    ("list", &[0, 1, 2, 4, 5, 11]),
    ("read", &[0, 1, 2, 4, 5, 10, 11, 12, 13]),
    ("read_or", &[0, 1, 2, 4, 5, 10, 11, 12, 13]),
];

/// The lengths of a command line that must be answered.
const LINES: [u32; 4] = [0, 1, 255, 256];

pub struct Reached {
    counts: HashMap<Thing, u64>,
    released: memory::Released,
}

impl Reached {
    pub fn new() -> Reached {
        Reached { counts: HashMap::new(), released: [Span::NONE; 32] }
    }

    /// Another case begins.
    pub fn start_case(&mut self) {
        self.released = [Span::NONE; 32];
    }

    fn add(&mut self, thing: Thing) {
        *self.counts.entry(thing).or_insert(0) += 1;
    }

    fn count_if(&mut self, is_kind: bool, kind: &'static str) {
        if is_kind {
            self.add(Thing::Kind(kind));
        }
    }

    /// Counts a call on which the sides agree; `before` is there for serving.
    pub fn count(&mut self, call: &Call, before: Option<&Side>, after: &Side) {
        if matches!(call, Call::Lend(_) | Call::Write { .. }) {
            return;
        }
        self.add(Thing::Outcome(call.names()[0], after.numbers[0]));
        self.count_kinds(call, after);
        if let Some(before) = before {
            self.count_served(before, after);
        }
    }

    fn count_served(&mut self, before: &Side, after: &Side) {
        let tags = walk::tags(before.bytes.lent());
        self.add(Thing::Address(after.address));
        self.count_message(before, after, &tags);
        self.count_stored_offset(&before.board, after.numbers[0]);
        self.count_stored_heap(&before.board, after.numbers[0]);
        self.count_memory(before, after, &tags);
        for tag in &tags {
            let answered = word(after.bytes.lent(), tag.at + 8) & ANSWERED != 0;
            if tag.is_request() && answered {
                self.add(Thing::Tag(tag.id));
                if tag.id == known::COMMAND_LINE {
                    self.add(Thing::Line(after.board.facts.characters));
                }
            }
        }
        if after.numbers[0] == 0 {
            self.count_group(before, &tags);
        }
    }

    /// A line for each thing reached, with its count; of virtual offsets, stored heaps, alignments,
    /// command lines and addresses the count of the rarest.
    pub fn print(&self) {
        let sorted: BTreeMap<_, _> = self.counts.iter().collect();
        for (thing, count) in sorted.into_iter().filter(|(thing, _)| !is_alike(thing)) {
            println!("{count:>9}  {thing}");
        }
        let rarest = |of: &str, things: &mut dyn Iterator<Item = Thing>| {
            let least = things.filter_map(|thing| self.counts.get(&thing)).min();
            println!("{:>9}  or more for each {of}", least.unwrap_or(&0));
        };
        let offset = "kind of virtual offset: on x and y, set, tested and stored";
        rarest(offset, &mut offsets::all());
        rarest("rule of the heap and its blocks: broken and just kept", &mut heaps::all());
        rarest("alignment: powers of two, 0 and 24", &mut group::alignments());
        rarest("alignment of a block: powers of two and no powers", &mut memory::alignments());
        let line = format!("command line of {LINES:?} characters");
        rarest(&line, &mut LINES.into_iter().map(Thing::Line));
        rarest("address modulo 16", &mut (0..16).map(Thing::Address));
    }

    /// The things never reached.
    pub fn missing(&self) -> Vec<Thing> {
        let outcomes = OUTCOMES.iter().flat_map(|(function, outcomes)| {
            outcomes.iter().map(|outcome| Thing::Outcome(function, *outcome))
        });
        let tags = known::all().map(|known| Thing::Tag(known.id));
        let lines = LINES.into_iter().map(Thing::Line);
        let addresses = (0..16).map(Thing::Address);
        let all = outcomes.chain(tags).chain(lines).chain(addresses);
        let all = all.chain(group::cases()).chain(group::alignments());
        let all = all.chain(kinds::all()).chain(messages::all()).chain(offsets::all());
        let all = all.chain(memory::all()).chain(memory::alignments()).chain(heaps::all());
        all.filter(|thing| !self.counts.contains_key(thing)).collect()
    }
}

/// Whether it is one of many alike, of which the rarest is printed.
fn is_alike(thing: &Thing) -> bool {
    let stored = matches!(thing, Thing::Offset(..) | Thing::Heap(..));
    let aligned = matches!(thing, Thing::Alignment(_) | Thing::BlockAlignment(_));
    stored || aligned || matches!(thing, Thing::Line(_) | Thing::Address(_))
}
