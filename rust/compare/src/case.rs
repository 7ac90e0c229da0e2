//! A case: a board and calls on it.

use interface::Board;

#[derive(Clone, PartialEq)]
#[rustfmt::skip]
pub enum Call {
    /// Gives the calls behind it these bytes to work on.
    Lend(Vec<u8>),
    /// Writes a word into the lent bytes, as a client does that sends its message anew.
    Write { at: usize, word: u32 },
    Serve,
    Start,
    /// Without a cursor it takes the one given before.
    Add { cursor: Option<usize>, id: u32, size: u32, request: Vec<u8> },
    Finish { cursor: Option<usize> },
    List { index: usize },
    Read { id: u32, occurrence: usize, wanted: usize },
    /// A reading with this many bytes as the default.
    ReadOr { id: u32, occurrence: usize, wanted: usize, default: usize },
}

impl Call {
    /// The function called and the names of what it gives back, the outcome first.
    pub fn names(&self) -> &'static [&'static str] {
        match self {
            Call::Lend(_) => &["lend"],
            Call::Write { .. } => &["write"],
            Call::Serve => &["serve", "outcome", "place"],
            Call::Start => &["start", "outcome", "cursor"],
            Call::Add { .. } => &["add", "outcome", "cursor"],
            Call::Finish { .. } => &["finish", "outcome", "size"],
            Call::List { .. } => &["list", "outcome", "place", "id", "size", "word", "value"],
            Call::Read { .. } => &["read", "outcome", "place", "answer", "value", "count"],
            Call::ReadOr { .. } => &["read_or", "outcome", "default", "offset", "count"],
        }
    }
}

#[derive(Clone, PartialEq)]
pub struct Case {
    pub board: Board,
    /// The lent bytes' address modulo 16.
    pub address: usize,
    pub calls: Vec<Call>,
}
