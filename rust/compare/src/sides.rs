//! The calls of a case, made through the library and through the rules side by side.

use crate::case::{Call, Case};
use crate::guarded::Guarded;
use crate::panics;
use crate::reached::Reached;
use crate::walk::put_word;
use interface::{Board, Listed, Reading};

/// The functions compared.
struct Functions {
    serve: fn(&mut Board, &mut [u8]) -> (u32, usize),
    start: fn(&[u8]) -> (u32, usize),
    add: fn(&mut [u8], &mut usize, u32, u32, &[u8]) -> u32,
    finish: fn(&mut [u8], usize) -> (u32, usize),
    list: fn(&[u8], usize) -> Listed,
    read: fn(&[u8], u32, usize, usize) -> Reading,
    read_or: ReadOr,
}

type ReadOr = for<'a> fn(&'a [u8], u32, usize, usize, &'a [u8]) -> (u32, &'a [u8]);

const LIBRARY: Functions = Functions {
    serve: vcmailbox::serve,
    start: vcmailbox::start,
    add: vcmailbox::add,
    finish: vcmailbox::finish,
    list: vcmailbox::list,
    read: vcmailbox::read,
    read_or: vcmailbox::read_or,
};

const RULES: Functions = Functions {
    serve: interface::respond,
    start: interface::start,
    add: interface::add,
    finish: interface::finish,
    list: interface::list,
    read: interface::read,
    read_or: interface::read_or,
};

/// A byte of a default.
const DEFAULT: u8 = 0xD7;

/// What a call gives back, in the order of its names.
pub type Numbers = [u64; 6];

/// What one side holds.
#[derive(Clone)]
pub struct Side {
    pub board: Board,
    pub address: usize,
    pub bytes: Guarded,
    pub cursor: usize,
    pub numbers: Numbers,
    /// The words of a panic that ended the last call.
    pub panic: Option<String>,
}

impl Side {
    fn new(case: &Case) -> Side {
        Side {
            board: case.board,
            address: case.address,
            bytes: Guarded::new(&[], case.address),
            cursor: 0,
            numbers: [0; 6],
            panic: None,
        }
    }

    fn agrees(&self, other: &Side) -> bool {
        let whole = |side: &Side| side.panic.is_none() && side.bytes.is_intact();
        whole(self)
            && whole(other)
            && (self.numbers, self.cursor) == (other.numbers, other.cursor)
            && self.bytes.lent() == other.bytes.lent()
            && self.board == other.board
    }

    fn make(&mut self, functions: &Functions, call: &Call) {
        let lent = self.bytes.lent_mut();
        self.numbers = match call {
            Call::Lend(bytes) => {
                self.bytes = Guarded::new(bytes, self.address);
                self.cursor = 0;
                [0; 6]
            }
            Call::Write { at, word } => {
                if at + 4 <= lent.len() {
                    put_word(lent, *at, *word);
                }
                [0; 6]
            }
            Call::Serve => pair((functions.serve)(&mut self.board, lent)),
            Call::Start => {
                let given = (functions.start)(lent);
                self.cursor = given.1;
                pair(given)
            }
            Call::Add { cursor, id, size, request } => {
                self.cursor = cursor.unwrap_or(self.cursor);
                // Twice the rest: buffer and request lie alike in some cases, and apart in others.
                let request = Guarded::new(request, 2 * self.address);
                let outcome = (functions.add)(lent, &mut self.cursor, *id, *size, request.lent());
                pair((outcome, self.cursor))
            }
            Call::Finish { cursor } => {
                pair((functions.finish)(lent, cursor.unwrap_or(self.cursor)))
            }
            Call::List { index } => listed((functions.list)(lent, *index)),
            Call::Read { id, occurrence, wanted } => {
                shown((functions.read)(lent, *id, *occurrence, *wanted))
            }
            Call::ReadOr { id, occurrence, wanted, default } => {
                self.read_or(functions.read_or, *id, *occurrence, *wanted, *default)
            }
        };
    }

    fn read_or(
        &self,
        read_or: ReadOr,
        id: u32,
        occurrence: usize,
        wanted: usize,
        default: usize,
    ) -> Numbers {
        let default = Guarded::new(&vec![DEFAULT; default], 2 * self.address);
        let (message, default) = (self.bytes.lent(), default.lent());
        stands(read_or(message, id, occurrence, wanted, default), [message, default])
    }
}

fn pair((outcome, second): (u32, usize)) -> Numbers {
    [outcome.into(), second as u64, 0, 0, 0, 0]
}

fn listed(given: Listed) -> Numbers {
    let Listed { outcome, place, id, size, word, value } = given;
    [outcome.into(), place as u64, id.into(), size.into(), word.into(), value as u64]
}

fn shown(given: Reading) -> Numbers {
    let Reading { outcome, place, answer, value, count } = given;
    [outcome.into(), place as u64, answer.into(), value as u64, count as u64, 0]
}

/// Which of the slices the bytes shown are a part of, by its number, their offset in it and their count.
fn stands((outcome, shown): (u32, &[u8]), slices: [&[u8]; 2]) -> Numbers {
    let offset = |slice: &[u8]| {
        let at = (shown.as_ptr() as usize).checked_sub(slice.as_ptr() as usize)?;
        (at + shown.len() <= slice.len()).then_some(at)
    };
    let holder = |(which, slice): (usize, &&[u8])| Some((which, offset(slice)?));
    let none = (slices.len(), 0);
    let (which, at) = slices.iter().enumerate().find_map(holder).unwrap_or(none);
    [outcome.into(), which as u64, at as u64, shown.len() as u64, 0, 0]
}

/// Where the sides part: the call, and what each holds after it.
pub struct Disagreement {
    pub call: usize,
    pub library: Side,
    pub rules: Side,
}

/// Makes the calls on both sides, up to the first after which they differ.
pub fn run(case: &Case, mut reached: Option<&mut Reached>) -> Option<Disagreement> {
    let mut library = Side::new(case);
    let mut rules = Side::new(case);
    if let Some(reached) = reached.as_deref_mut() {
        reached.start_case();
    }
    for (index, call) in case.calls.iter().enumerate() {
        let before = (reached.is_some() && matches!(call, Call::Serve)).then(|| rules.clone());
        library.make(&LIBRARY, call);
        let made = panics::caught(|| rules.make(&RULES, call));
        rules.panic = made.err();
        if !library.agrees(&rules) {
            return Some(Disagreement { call: index, library, rules });
        }
        if let Some(reached) = reached.as_deref_mut() {
            reached.count(call, before.as_ref(), &rules);
        }
    }
    None
}

/// What the library holds after the first of the calls.
pub fn library_after(case: &Case, calls: usize) -> Side {
    let mut library = Side::new(case);
    for call in &case.calls[..calls] {
        library.make(&LIBRARY, call);
    }
    library
}
