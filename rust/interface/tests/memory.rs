//! Memory handles: blocks allocated, locked and released, and the records that hold them.

mod common;

use common::{board, message, serve};
use interface::*;

const BASE: u32 = 0x3C80_0000;
const HEAP: u32 = 0x0040_0000;

#[derive(Clone, Copy, Debug)]
enum Call {
    /// Size, alignment and flags.
    Allocate(u32, u32, u32),
    Lock(u32),
    Unlock(u32),
    Release(u32),
}

use Call::{Allocate, Lock, Release, Unlock};

impl Call {
    fn tag(self) -> Vec<u32> {
        match self {
            Allocate(size, alignment, flags) => vec![0x0003_000C, 12, 0, size, alignment, flags],
            Lock(handle) => vec![0x0003_000D, 4, 0, handle],
            Unlock(handle) => vec![0x0003_000E, 4, 0, handle],
            Release(handle) => vec![0x0003_000F, 4, 0, handle],
        }
    }

    /// The call's tag as it gives this answer.
    fn answered(self, answer: u32) -> Vec<u32> {
        let mut tag = self.tag();
        tag[2] = 0x8000_0004;
        tag[3] = answer;
        tag
    }
}

fn tags(calls: &[Call]) -> Vec<u32> {
    calls.iter().flat_map(|call| call.tag()).collect()
}

/// Serves the calls in one message; each gives its answer, and the record stays valid.
fn answer(board: &mut Board, calls: &[Call], answers: &[u32]) {
    assert_eq!(calls.len(), answers.len());
    let (outcome, place, words) = serve(board, &message(&tags(calls)));
    assert_eq!((outcome, place, words[1]), (0, 0, 0x8000_0000));
    let pairs = calls.iter().zip(answers);
    let expected: Vec<u32> = pairs.flat_map(|(call, answer)| call.answered(*answer)).collect();
    assert_eq!(words[2..words.len() - 1], expected);
    assert!(is_valid(board));
}

/// Serves the call, which gives this answer and leaves the record as it is.
fn answer_idly(before: Board, call: Call, given: u32) {
    let mut board = before;
    answer(&mut board, &[call], &[given]);
    assert_eq!(board, before);
}

/// The tests' board after these calls.
fn after(calls: &[Call], answers: &[u32]) -> Board {
    let mut board = board();
    answer(&mut board, calls, answers);
    board
}

fn with_heap(base: u32, size: u32) -> Board {
    Board { heap: Span { base, size }, ..board() }
}

fn block(base: u32, size: u32, alignment: u32) -> Block {
    Block { taken: true, locked: false, base, size, alignment, flags: 0 }
}

/// The tests' board with these blocks in its first places.
fn with_blocks(blocks: &[Block]) -> Board {
    let mut board = board();
    board.blocks[..blocks.len()].copy_from_slice(blocks);
    board
}

#[test]
fn one_unlock_undoes_two_locks() {
    let unlocked = after(&[Allocate(16, 16, 0)], &[1]);
    assert_eq!(unlocked, with_blocks(&[block(BASE, 16, 16)]));
    let mut board = unlocked;
    for _ in 0..2 {
        answer(&mut board, &[Lock(1)], &[BASE]);
        assert_eq!(board, with_blocks(&[Block { locked: true, ..block(BASE, 16, 16) }]));
    }
    answer(&mut board, &[Unlock(1)], &[0]);
    assert_eq!(board, unlocked);
}

#[test]
fn unlocking_an_unlocked_block() {
    answer_idly(after(&[Allocate(16, 16, 0)], &[1]), Unlock(1), 0);
}

#[test]
fn releasing_a_locked_block() {
    let calls = [Allocate(16, 16, 3), Lock(1), Release(1)];
    assert_eq!(after(&calls, &[1, BASE, 0]), board());
    answer_idly(after(&calls, &[1, BASE, 0]), Lock(1), 0);
}

#[test]
fn a_released_place_and_its_room_serve_again() {
    let full = after(&[Allocate(16, 16, 0); 4], &[1, 2, 3, 4]);
    let mut board = full;
    answer(&mut board, &[Release(3), Release(1), Release(2)], &[0; 3]);
    answer(&mut board, &[Allocate(16, 16, 0); 3], &[1, 2, 3]);
    assert_eq!(board, full);

    // The lowest place is not always that of the lowest address.
    answer(&mut board, &[Release(1), Allocate(32, 16, 0)], &[0, 1]);
    assert_eq!(board.blocks[0], block(BASE + 64, 32, 16));
    answer(&mut board, &[Release(3), Allocate(16, 16, 0), Lock(3)], &[0, 3, BASE]);
    answer(&mut board, &[Allocate(16, 16, 0), Lock(5)], &[5, BASE + 32]);
}

#[test]
fn unknown_handles() {
    let used = after(&[Allocate(16, 16, 0); 3], &[1, 2, 3]);
    let gapped = after(
        &[Allocate(16, 16, 0), Allocate(16, 16, 0), Allocate(16, 16, 0), Release(2)],
        &[1, 2, 3, 0],
    );
    for (board, free) in [(board(), 1), (used, 4), (gapped, 2), (used, 32)] {
        for handle in [0, 33, 0x8000_0001, 0xFFFF_FFFF, free] {
            answer_idly(board, Lock(handle), 0);
            answer_idly(board, Unlock(handle), 1);
            answer_idly(board, Release(handle), 1);
        }
    }
}

#[test]
fn more_blocks_than_places() {
    let calls = [Allocate(4, 4, 0); 33];
    let mut answers: Vec<u32> = (1..=33).collect();
    answers[32] = 0;
    let mut board = after(&calls, &answers);
    for (place, held) in board.blocks.iter().enumerate() {
        assert_eq!(*held, block(BASE + 4 * place as u32, 4, 4));
    }
    answer_idly(board, Allocate(1, 1, 0), 0);
    answer(&mut board, &[Lock(32), Release(32), Allocate(1, 1, 0)], &[BASE + 124, 0, 32]);
}

#[test]
fn a_heap_full_by_bytes() {
    answer_idly(board(), Allocate(HEAP + 1, 1, 0), 0);
    let whole = after(&[Allocate(HEAP, 1, 0)], &[1]);
    assert_eq!(whole.blocks[0], block(BASE, HEAP, 1));
    answer_idly(whole, Allocate(1, 1, 0), 0);

    let mut board = after(&[Allocate(HEAP / 2, 1, 0), Allocate(HEAP / 2 - 1, 1, 0)], &[1, 2]);
    answer_idly(board, Allocate(2, 1, 0), 0);
    answer(&mut board, &[Allocate(1, 1, 0), Lock(3)], &[3, BASE + HEAP - 1]);
    answer_idly(board, Allocate(1, 1, 0), 0);
    answer_idly(with_heap(BASE, 0), Allocate(1, 1, 0), 0);
}

#[test]
fn alignments() {
    for alignment in [0, 24, 3, 0x8000_0001, 0xFFFF_FFFF] {
        answer_idly(board(), Allocate(16, alignment, 0), 0);
    }
    let highest = Allocate(16, 1 << 31, 0);
    answer_idly(board(), highest, 0);
    answer_idly(with_heap(0x8000_0001, 0x7FFF_FFFE), highest, 0);
    answer_idly(with_heap(0x7FFF_FF00, 0x10F), highest, 0);
    for (base, size) in [(0x7FFF_FF00, 0x110), (0x8000_0000, 0x10)] {
        let mut board = with_heap(base, size);
        answer(&mut board, &[highest, Lock(1), highest], &[1, 1 << 31, 0]);
        assert_eq!(board.blocks[0].alignment, 1 << 31);
    }
}

#[test]
fn a_size_of_0() {
    answer_idly(board(), Allocate(0, 16, 0), 0);
    answer_idly(after(&[Allocate(HEAP, 16, 0)], &[1]), Allocate(0, 16, 0), 0);
}

/// A board whose heap takes all that a frame buffer region of 32 bytes at 0 leaves.
fn largest_heap() -> Board {
    let mut board = with_heap(32, 0xFFFF_FFFF - 32);
    board.display.region = Span { base: 0, size: 32 };
    board.display.settings.depth = 8;
    board.display.settings.physical = Size { width: 1, height: 1 };
    board.display.settings.logical = Size { width: 1, height: 1 };
    board
}

#[test]
fn a_size_that_wraps() {
    for alignment in [1, 16, 1 << 31] {
        for size in [0xFFFF_FFFF, 0xFFFF_FFF0, 0xFFFF_FFFF - 31] {
            let call = Allocate(size, alignment, 0);
            answer_idly(board(), call, 0);
            answer_idly(after(&[Allocate(16, 1, 0)], &[1]), call, 0);
            answer_idly(largest_heap(), call, 0);
        }
    }
    let mut board = largest_heap();
    answer(&mut board, &[Allocate(0xFFFF_FFFF - 32, 1, 0), Lock(1)], &[1, 32]);
    answer_idly(board, Allocate(0xFFFF_FFFF, 1, 0), 0);
}

#[test]
fn gaps_and_their_sizes() {
    let sizes = [Allocate(16, 1, 0), Allocate(17, 1, 0), Allocate(16, 1, 0)];
    let gapped = after(&[&sizes[..], &[Release(2)]].concat(), &[1, 2, 3, 0]);
    for (size, base) in [(1, BASE + 16), (17, BASE + 16), (18, BASE + 49)] {
        let mut board = gapped;
        answer(&mut board, &[Allocate(size, 1, 0), Lock(2)], &[2, base]);
    }
    // A gap that is large enough by its bytes, but not behind its first aligned address.
    let mut board = gapped;
    answer(&mut board, &[Allocate(14, 4, 0), Lock(2)], &[2, BASE + 16]);
    let mut board = with_blocks(&[block(BASE, 15, 1), block(BASE + 32, 1, 1)]);
    answer(&mut board, &[Allocate(17, 16, 0), Lock(3)], &[3, BASE + 48]);
}

#[test]
fn the_lowest_free_address_is_not_aligned() {
    let mut board = after(&[Allocate(1, 1, 0), Allocate(16, 64, 0)], &[1, 2]);
    assert_eq!(board.blocks[1], block(BASE + 64, 16, 64));
    answer(&mut board, &[Allocate(62, 2, 0), Lock(3)], &[3, BASE + 2]);
    answer(&mut board, &[Allocate(1, 1, 0), Lock(4)], &[4, BASE + 1]);

    let mut board = with_heap(BASE + 1, 8_192);
    answer(&mut board, &[Allocate(4_096, 4_096, 0), Lock(1)], &[1, BASE + 4_096]);
    answer(&mut board, &[Allocate(2, 4_096, 0), Allocate(1, 4_096, 0)], &[0, 2]);
    assert_eq!(board.blocks[1], block(BASE + 8_192, 1, 4_096));
}

#[test]
fn calls_around_a_fault() {
    let (first, second) = (Allocate(16, 16, 1), Allocate(32, 32, 2));
    let short = [0x0003_000D, 3, 0, 0];
    let over = [0x0003_000D, 0x100, 0, 0];
    for (fault, outcome) in [(short, 6), (over, 5)] {
        let request = [first.tag(), fault.to_vec(), second.tag()].concat();
        let mut board = board();
        let (given, place, words) = serve(&mut board, &message(&request));
        assert_eq!((given, place, words[1]), (outcome, 32, 0x8000_0001));
        assert_eq!(words[2..8], first.answered(1));
        assert_eq!(words[8..18], request[6..]);
        assert_eq!(board, with_blocks(&[Block { flags: 1, ..block(BASE, 16, 16) }]));
    }
}

#[test]
fn calls_before_a_missing_end() {
    let calls = [Allocate(16, 16, 0), Lock(1)];
    let mut endless = message(&tags(&calls));
    endless.truncate(endless.len() - 4);
    endless[0] -= 4;
    let mut board = board();
    let (outcome, place, words) = serve(&mut board, &endless);
    assert_eq!((outcome, place, words[1]), (4, 48, 0x8000_0001));
    assert_eq!(words[2..], [calls[0].answered(1), calls[1].answered(BASE)].concat());
    assert_eq!(board.blocks[0], Block { locked: true, ..block(BASE, 16, 16) });
}

#[test]
fn values_too_short() {
    let before = after(&[Allocate(16, 16, 0)], &[1]);
    let short_allocate = vec![0x0003_000C, 11, 0, 16, 16, 0];
    let short = |id| vec![id, 3, 0, 1];
    let others = [short(0x0003_000D), short(0x0003_000E), short(0x0003_000F)];
    for tag in others.into_iter().chain([short_allocate]) {
        let mut board = before;
        let (outcome, place, words) = serve(&mut board, &message(&tag));
        assert_eq!((outcome, place, words[1]), (6, 8, 0x8000_0001));
        assert_eq!(words[2..words.len() - 1], tag);
        assert_eq!(board, before);
    }
}

#[test]
fn values_longer_than_the_request() {
    let mut board = board();
    let request = [0x0003_000C, 17, 0, 16, 64, 5, 6, 7, 0x0003_000D, 8, 0, 1, 9];
    let (outcome, _, words) = serve(&mut board, &message(&request));
    let held = Block { locked: true, flags: 5, ..block(BASE, 16, 64) };
    assert_eq!((outcome, board), (0, with_blocks(&[held])));
    assert_eq!(words[2..10], [0x0003_000C, 17, 0x8000_0004, 1, 64, 5, 6, 7]);
    assert_eq!(words[10..15], [0x0003_000D, 8, 0x8000_0004, BASE, 9]);
}

#[test]
fn flags_are_kept() {
    for flags in [0, 1, 0x5A, 0x8000_0000, 0xFFFF_FFFF] {
        let board = after(&[Allocate(16, 16, flags)], &[1]);
        assert_eq!(board, with_blocks(&[Block { flags, ..block(BASE, 16, 16) }]));
    }
}

#[test]
fn a_released_place_is_all_zero() {
    let calls = [Allocate(16, 16, 7), Allocate(16, 16, 9), Lock(2), Release(2)];
    let Block { taken, locked, base, size, alignment, flags } =
        after(&calls, &[1, 2, BASE + 16, 0]).blocks[1];
    assert_eq!((taken, locked), (false, false));
    assert_eq!([base, size, alignment, flags], [0; 4]);
}

/// The record is invalid, and a message on it leaves everything as it is.
fn refuse(record: Board) {
    assert!(!is_valid(&record));
    let request = message(&tags(&[Allocate(1, 1, 0), Lock(1), Release(1)]));
    let (mut served, mut lent) = (record, request.clone());
    assert_eq!(respond(&mut served, &mut lent), (14, 0));
    assert_eq!((served, lent), (record, request));
}

/// The record is valid, and calls on handles that it does not know leave it as it is.
fn accept(record: Board) {
    let mut served = record;
    answer(&mut served, &[Lock(33), Unlock(0), Release(33)], &[0, 1, 1]);
    assert_eq!(served, record);
}

#[test]
fn stored_heap_at_address_0() {
    for size in [0, 1, HEAP] {
        refuse(with_heap(0, size));
        accept(with_heap(1, size));
    }
}

#[test]
fn stored_heap_up_to_the_last_address() {
    accept(with_heap(BASE, 0xFFFF_FFFF - BASE));
    refuse(with_heap(BASE, 0xFFFF_FFFF - BASE + 1));
    accept(with_heap(0xFFFF_FFFF, 0));
    refuse(with_heap(0xFFFF_FFFF, 1));
    refuse(with_heap(0xFFFF_FFFF, 0xFFFF_FFFF));
    refuse(with_heap(BASE, 0xFFFF_FFFF));
}

#[test]
fn stored_heap_against_the_region() {
    let region = board().display.region;
    let end = region.base + region.size;
    accept(with_heap(region.base - 16, 16));
    refuse(with_heap(region.base - 16, 17));
    accept(with_heap(end, 16));
    refuse(with_heap(end - 1, 16));
    refuse(with_heap(end - 1, 1));
    refuse(with_heap(region.base, 1));
    refuse(with_heap(region.base - 1, region.size + 2));
    refuse(with_heap(region.base, region.size));
    for base in [region.base - 1, region.base, region.base + 1, end - 1, end] {
        accept(with_heap(base, 0));
    }
}

#[test]
fn stored_block_of_size_0() {
    refuse(with_blocks(&[block(BASE, 0, 1)]));
    refuse(with_blocks(&[block(BASE + 16, 0, 16), block(BASE, 16, 16)]));
    accept(with_blocks(&[block(BASE, 1, 1)]));
}

#[test]
fn stored_block_outside_the_heap() {
    let end = BASE + HEAP;
    accept(with_blocks(&[block(BASE, HEAP, 1)]));
    refuse(with_blocks(&[block(BASE - 1, HEAP, 1)]));
    refuse(with_blocks(&[block(BASE, HEAP + 1, 1)]));
    refuse(with_blocks(&[block(BASE - 1, HEAP + 2, 1)]));
    accept(with_blocks(&[block(end - 1, 1, 1)]));
    refuse(with_blocks(&[block(end, 1, 1)]));
    refuse(with_blocks(&[block(BASE - 1, 1, 1)]));
    // Their ends would lie in the heap again in 32 bits.
    refuse(with_blocks(&[block(BASE + 2, 0xFFFF_FFFF, 1)]));
    refuse(with_blocks(&[block(BASE + 16, 0xFFFF_FFF8, 8)]));
    let mut empty = with_heap(BASE, 0);
    empty.blocks[0] = block(BASE, 1, 1);
    refuse(empty);
}

#[test]
fn stored_block_not_aligned() {
    for base in [BASE + 1, BASE + 8, BASE + 15, BASE + 17] {
        refuse(with_blocks(&[block(base, 16, 16)]));
    }
    accept(with_blocks(&[block(BASE + 16, 16, 16)]));
    accept(with_blocks(&[block(BASE + 8, 16, 8)]));
    refuse(with_blocks(&[block(BASE, 16, 1 << 31)]));
}

#[test]
fn stored_alignment_without_exactly_one_bit() {
    let base = BASE.next_multiple_of(24);
    for alignment in [0, 24, 12, 3] {
        refuse(with_blocks(&[block(base, 16, alignment)]));
    }
    for alignment in [1, 8] {
        accept(with_blocks(&[block(base, 16, alignment)]));
    }
}

#[test]
fn stored_blocks_that_share_a_byte() {
    let (low, high) = (block(BASE, 16, 1), block(BASE + 16, 16, 1));
    let (long, early) = (block(BASE, 17, 1), block(BASE + 15, 16, 1));
    let (whole, inner) = (block(BASE, 64, 1), block(BASE + 20, 1, 1));
    for (first, second) in [(low, early), (long, high), (whole, inner), (low, low)] {
        for (one, other) in [(0, 1), (1, 0), (0, 31), (31, 0), (7, 20), (31, 30)] {
            let mut record = board();
            (record.blocks[one], record.blocks[other]) = (first, second);
            refuse(record);
        }
    }
    accept(with_blocks(&[low, high]));
    accept(with_blocks(&[high, low]));
}

#[test]
fn stored_numbers_of_a_free_place() {
    let wild = [
        Block { taken: false, ..block(BASE, 16, 16) },
        Block { taken: false, ..block(1, 0xFFFF_FFFF, 24) },
        Block { taken: false, locked: true, ..block(0xFFFF_FFFF, 0xFFFF_FFFF, 0) },
        Block { taken: false, locked: true, flags: 7, ..block(BASE, HEAP, 1) },
    ];
    let record = with_blocks(&wild);
    accept(record);
    for handle in 1..=4 {
        answer_idly(record, Lock(handle), 0);
        answer_idly(record, Unlock(handle), 1);
        answer_idly(record, Release(handle), 1);
    }
    let mut board = record;
    answer(&mut board, &[Allocate(16, 16, 0)], &[1]);
    assert_eq!(board.blocks[..4], [block(BASE, 16, 16), wild[1], wild[2], wild[3]]);
    board = record;
    board.blocks[4] = block(BASE, 16, 16);
    accept(board);
}

/// Numbers that look random, by a linear congruence.
struct Draw(u64);

impl Draw {
    fn below(&mut self, bound: u32) -> u32 {
        self.0 = self.0.wrapping_mul(6_364_136_223_846_793_005).wrapping_add(1);
        (self.0 >> 33) as u32 % bound
    }

    /// A power of two up to 128, or 0, 3 or 24 once in a while.
    fn alignment(&mut self) -> u32 {
        match self.below(20) {
            0 => [0, 3, 24][self.below(3) as usize],
            _ => 1 << self.below(8),
        }
    }

    /// A size from 1 to the largest, or 0 once in a while.
    fn size(&mut self, largest: u32) -> u32 {
        match self.below(20) {
            0 => 0,
            _ => 1 + self.below(largest),
        }
    }

    fn call(&mut self, largest: u32) -> Call {
        let handle = self.below(35);
        match self.below(8) {
            0 => Lock(handle),
            1 => Unlock(handle),
            2 => Release(handle),
            _ => Allocate(self.size(largest), self.alignment(), self.below(9)),
        }
    }
}

/// The lowest fitting address of a small heap: each is tried, and each byte from there on.
fn searched(board: &Board, size: u32, alignment: u32) -> Option<u32> {
    let (base, end) = (u64::from(board.heap.base), board.heap.end());
    let mut free = vec![true; board.heap.size as usize];
    for held in board.blocks.iter().filter(|block| block.taken) {
        let first = (held.base - board.heap.base) as usize;
        free[first..first + held.size as usize].fill(false);
    }
    let fits = |at: u64| {
        at % u64::from(alignment) == 0
            && (at..at + u64::from(size)).all(|byte| byte < end && free[(byte - base) as usize])
    };
    (base..end).find(|at| fits(*at)).map(|at| at as u32)
}

/// The answer that the call should give, and the board afterwards.
fn expected(board: &Board, call: Call) -> (u32, Board) {
    let mut after = *board;
    let known = |handle: u32| (1..=32).contains(&handle) && board.blocks[handle as usize - 1].taken;
    match call {
        Allocate(size, alignment, flags) => {
            let place = board.blocks.iter().position(|block| !block.taken);
            if let (true, 1, Some(place)) = (size > 0, alignment.count_ones(), place) {
                if let Some(base) = searched(board, size, alignment) {
                    after.blocks[place] = Block { flags, ..block(base, size, alignment) };
                    return (place as u32 + 1, after);
                }
            }
            (0, after)
        }
        Lock(handle) if known(handle) => {
            after.blocks[handle as usize - 1].locked = true;
            (board.blocks[handle as usize - 1].base, after)
        }
        Unlock(handle) if known(handle) => {
            after.blocks[handle as usize - 1].locked = false;
            (0, after)
        }
        Release(handle) if known(handle) => {
            after.blocks[handle as usize - 1] = Block::FREE;
            (0, after)
        }
        Lock(_) => (0, after),
        Unlock(_) | Release(_) => (1, after),
    }
}

fn bytes_held(board: &Board) -> u32 {
    board.blocks.iter().filter(|block| block.taken).map(|block| block.size).sum()
}

/// Small heaps: at the lowest address, at odd and even ones, and up to the last.
const SMALL_HEAPS: [Span; 6] = [
    Span { base: 1, size: 64 },
    Span { base: 24, size: 64 },
    Span { base: 64, size: 64 },
    Span { base: 101, size: 63 },
    Span { base: 0xFFFF_FF80, size: 64 },
    Span { base: 0xFFFF_FFBF, size: 64 },
];

#[test]
fn random_calls_against_a_search_by_bytes() {
    let mut draw = Draw(1);
    for heap in SMALL_HEAPS {
        for largest in [1, 2, 5, 12, 40] {
            let mut board = Board { heap, ..board() };
            let (mut granted, mut released) = (0, 0);
            for _ in 0..200 {
                let call = draw.call(largest);
                let (given, after) = expected(&board, call);
                match call {
                    Allocate(size, ..) if given != 0 => granted += size,
                    Release(handle) if given == 0 => {
                        released += board.blocks[handle as usize - 1].size;
                    }
                    _ => {}
                }
                answer(&mut board, &[call], &[given]);
                assert_eq!(board, after, "{call:?}");
                assert_eq!(bytes_held(&board), granted - released);
            }
        }
    }
}

#[test]
fn random_layouts_against_a_search_by_bytes() {
    let mut draw = Draw(2);
    for round in 0..300 {
        let heap = SMALL_HEAPS[round % SMALL_HEAPS.len()];
        let mut board = Board { heap, ..board() };
        // In places of any order, what of these makes a valid record.
        for _ in 0..40 {
            let place = draw.below(32) as usize;
            let before = board.blocks[place];
            let base = heap.base + draw.below(heap.size);
            board.blocks[place] = block(base, 1 + draw.below(6), 1 << draw.below(3));
            if !is_valid(&board) {
                board.blocks[place] = before;
            }
        }
        for _ in 0..20 {
            let call = Allocate(draw.size(20), draw.alignment(), draw.below(9));
            let (given, after) = expected(&board, call);
            let mut served = board;
            answer(&mut served, &[call], &[given]);
            assert_eq!(served, after, "{call:?}");
        }
    }
}
