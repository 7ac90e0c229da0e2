//! GPU memory: records with blocks, and messages that allocate and release.

use crate::messages::{request, Request};
use interface::{Block, Board};

const ALLOCATE: u32 = 0x0003_000c;
const RELEASE: u32 = 0x0003_000f;

/// How often a message allocates and releases.
const PAIRS: usize = 1_000;

/// The size of each block of a record, of the gap behind it, and the alignment of all blocks.
const STEP: u32 = 4_096;

/// The bench record with so many blocks, in its first places: each lies above the one in the place
/// before it, from the heap's base on, with a gap between them.
pub fn record(blocks: u32) -> Board {
    let mut board = vcmailbox::bench();
    let heap = board.heap.base;
    for (place, i) in board.blocks.iter_mut().zip(0..blocks) {
        let base = heap + i * 2 * STEP;
        let (size, alignment) = (STEP, STEP);
        *place = Block { taken: true, locked: false, base, size, alignment, flags: 0 };
    }
    board
}

/// The word that a tag of a reply answers.
fn answer(reply: &[u8], id: u32, occurrence: usize) -> u32 {
    let reading = vcmailbox::read(reply, id, occurrence, 4);
    assert_eq!((reading.outcome, reading.count), (0, 4));
    let bytes = &reply[reading.value..][..4];
    u32::from_le_bytes(bytes.try_into().expect("four bytes"))
}

/// Serves a message outside the time that is taken: every block is granted, and every one released.
fn check(request: &Request, serve: impl Fn(&mut Board, &mut [u8]) -> (u32, usize)) {
    let (mut board, mut reply) = (request.board, request.bytes.clone());
    assert_eq!(serve(&mut board, &mut reply).0, request.outcome);
    for i in 0..PAIRS {
        assert_ne!(answer(&reply, ALLOCATE, i), 0);
        assert_eq!(answer(&reply, RELEASE, i), 0);
    }
    assert_eq!(board, request.board);
}

/// Allocate and release by turns, on a record with so many blocks. The gaps between them are too
/// small, so that the search for room passes every block; the handle is the one behind theirs.
pub fn by_turns(name: &'static str, blocks: u32) -> Request {
    let allocate = vec![ALLOCATE, 12, 0, 2 * STEP, STEP, 0];
    let release = vec![RELEASE, 4, 0, blocks + 1];
    let tags = (0..PAIRS).flat_map(|_| [allocate.clone(), release.clone()]);
    let request = Request { board: record(blocks), ..request(name, tags) };
    check(&request, vcmailbox::serve);
    check(&request, interface::respond);
    request
}
