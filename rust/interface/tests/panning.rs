//! How far the offset may move what is shown over the virtual size.

mod common;

use common::{board, message, serve};
use interface::*;

const TEST: u32 = 0x0004_4000;
const SET: u32 = 0x0004_8000;

#[derive(Clone, Copy)]
enum Change {
    Physical(u32, u32),
    Logical(u32, u32),
    Move(u32, u32),
}

use Change::{Logical, Move, Physical};

impl Change {
    fn tag(self, kind: u32) -> [u32; 5] {
        let (property, first, second) = match self {
            Physical(width, height) => (3, width, height),
            Logical(width, height) => (4, width, height),
            Move(x, y) => (9, x, y),
        };
        [kind + property, 8, 0, first, second]
    }

    fn apply(self, settings: &mut Settings) {
        match self {
            Physical(width, height) => settings.physical = Size { width, height },
            Logical(width, height) => settings.logical = Size { width, height },
            Move(x, y) => settings.offset = Offset { x, y },
        }
    }

    /// The change's tag as it answers these settings.
    fn answered(self, kind: u32, settings: &Settings) -> [u32; 5] {
        let Settings { physical, logical, offset, .. } = *settings;
        let standing = match self {
            Physical(..) => Physical(physical.width, physical.height),
            Logical(..) => Logical(logical.width, logical.height),
            Move(..) => Move(offset.x, offset.y),
        };
        let mut tag = standing.tag(kind);
        tag[2] = 0x8000_0008;
        tag
    }
}

/// Serves the changes in one message of this kind; every tag answers the settings given.
fn answer(board: &mut Board, kind: u32, changes: &[Change], settings: &Settings) {
    let tags: Vec<u32> = changes.iter().flat_map(|change| change.tag(kind)).collect();
    let (outcome, place, words) = serve(board, &message(&tags));
    assert_eq!((outcome, place, words[1]), (0, 0, 0x8000_0000));
    let answers: Vec<u32> =
        changes.iter().flat_map(|change| change.answered(kind, settings)).collect();
    assert_eq!(words[2..words.len() - 1], answers);
}

/// Tests the changes, which leaves the record as it is, and then sets them; the board afterwards.
fn accept(before: Board, changes: &[Change]) -> Board {
    let mut after = before;
    changes.iter().for_each(|change| change.apply(&mut after.display.settings));
    let mut board = before;
    answer(&mut board, TEST, changes, &after.display.settings);
    assert_eq!(board, before);
    answer(&mut board, SET, changes, &after.display.settings);
    assert_eq!(board, after);
    assert!(is_valid(&board));
    board
}

/// Tests the changes and sets them; both leave the record as it is.
fn refuse(before: Board, changes: &[Change]) {
    for kind in [TEST, SET] {
        let mut board = before;
        answer(&mut board, kind, changes, &before.display.settings);
        assert_eq!(board, before);
    }
}

#[test]
fn equal_sides_leave_nothing_to_pan() {
    accept(board(), &[Move(0, 0)]);
    for (x, y) in [(1, 0), (0, 1), (799, 0), (0, 479), (799, 479), (800, 0), (0, 480)] {
        refuse(board(), &[Move(x, y)]);
    }
}

#[test]
fn panning_on_the_y_axis() {
    let tall = Logical(800, 960);
    for y in [0, 1, 479, 480] {
        accept(board(), &[tall, Move(0, y)]);
        accept(board(), &[Move(0, y), tall]);
    }
    for (x, y) in [(0, 481), (0, 959), (0, 960), (1, 0), (1, 480), (480, 0)] {
        refuse(board(), &[tall, Move(x, y)]);
        refuse(board(), &[Move(x, y), tall]);
    }
}

#[test]
fn panning_on_the_x_axis() {
    let wide = Logical(1_600, 480);
    for x in [0, 1, 799, 800] {
        accept(board(), &[wide, Move(x, 0)]);
        accept(board(), &[Move(x, 0), wide]);
    }
    for (x, y) in [(801, 0), (1_599, 0), (1_600, 0), (0, 1), (800, 1), (0, 480)] {
        refuse(board(), &[wide, Move(x, y)]);
        refuse(board(), &[Move(x, y), wide]);
    }
}

#[test]
fn a_larger_physical_side_stays_at_the_start() {
    let grown = [Physical(801, 480), Logical(800, 960)];
    let shrunk = [Physical(800, 480), Logical(1, 960)];
    for sizes in [grown, shrunk] {
        let board = accept(board(), &sizes);
        accept(board, &[Move(0, 480)]);
        for (x, y) in [(1, 480), (1, 0), (799, 0), (800, 480), (0, 481)] {
            refuse(board, &[Move(x, y)]);
        }
    }
    let grown = [Physical(800, 481), Logical(1_600, 480)];
    let shrunk = [Physical(800, 480), Logical(1_600, 1)];
    for sizes in [grown, shrunk] {
        let board = accept(board(), &sizes);
        accept(board, &[Move(800, 0)]);
        for (x, y) in [(800, 1), (0, 1), (0, 479), (800, 480), (801, 0)] {
            refuse(board, &[Move(x, y)]);
        }
    }
    let board = accept(board(), &[Physical(4_096, 4_096)]);
    refuse(board, &[Move(1, 0)]);
    refuse(board, &[Move(0, 1)]);
}

#[test]
fn virtual_shrinks_under_the_offset_within_one_message() {
    refuse(board(), &[Logical(800, 960), Move(0, 480), Logical(800, 959)]);
    refuse(board(), &[Logical(1_600, 480), Move(800, 0), Logical(1_599, 480)]);
    accept(board(), &[Logical(800, 960), Move(0, 480), Logical(800, 959), Move(0, 479)]);
    accept(board(), &[Logical(1_600, 480), Move(800, 0), Move(799, 0), Logical(1_599, 480)]);
    accept(board(), &[Logical(800, 479), Move(0, 480), Logical(800, 960)]);
}

#[test]
fn virtual_shrinks_under_the_offset_in_a_second_message() {
    let tall = accept(board(), &[Logical(800, 960), Move(0, 480)]);
    for height in [959, 480, 479, 1] {
        refuse(tall, &[Logical(800, height)]);
    }
    refuse(tall, &[Logical(800, 959), Move(0, 480)]);
    accept(tall, &[Logical(800, 961)]);
    accept(tall, &[Logical(799, 960)]);

    let wide = accept(board(), &[Logical(1_600, 480), Move(800, 0)]);
    for width in [1_599, 800, 799, 1] {
        refuse(wide, &[Logical(width, 480)]);
    }
    refuse(wide, &[Move(800, 0), Logical(1_599, 480)]);
    accept(wide, &[Logical(1_601, 480)]);
    accept(wide, &[Logical(1_600, 479)]);
}

#[test]
fn the_offset_moves_back_as_virtual_shrinks() {
    let tall = accept(board(), &[Logical(800, 960), Move(0, 480)]);
    for (height, y) in [(959, 479), (481, 1), (480, 0), (479, 0)] {
        accept(tall, &[Logical(800, height), Move(0, y)]);
        accept(tall, &[Move(0, y), Logical(800, height)]);
    }
    let wide = accept(board(), &[Logical(1_600, 480), Move(800, 0)]);
    for (width, x) in [(1_599, 799), (801, 1), (800, 0), (799, 0)] {
        accept(wide, &[Logical(width, 480), Move(x, 0)]);
        accept(wide, &[Move(x, 0), Logical(width, 480)]);
    }
}

#[test]
fn physical_grows_under_the_offset() {
    let panned = accept(board(), &[Logical(1_600, 960), Move(800, 480)]);
    for (width, height) in [(801, 480), (800, 481), (1_601, 480), (800, 961), (1_601, 961)] {
        refuse(panned, &[Physical(width, height)]);
    }
    accept(panned, &[Physical(801, 480), Move(799, 480)]);
    accept(panned, &[Move(800, 0), Physical(800, 961)]);
    accept(panned, &[Physical(799, 479), Move(801, 481)]);
}

#[test]
fn offsets_whose_sum_wraps() {
    let board = accept(board(), &[Logical(1_600, 960)]);
    for x in [1 << 31, u32::MAX - 799, u32::MAX - 798, u32::MAX] {
        refuse(board, &[Move(x, 0)]);
    }
    for y in [1 << 31, u32::MAX - 479, u32::MAX - 478, u32::MAX] {
        refuse(board, &[Move(0, y)]);
    }
    refuse(board, &[Move(u32::MAX, u32::MAX)]);
}

#[test]
fn an_offset_out_of_reach_refuses_the_whole_operation() {
    let mut board = accept(board(), &[Logical(800, 960)]);
    serve(&mut board, &message(&[0x0004_0001, 8, 0, 16, 0]));
    assert_eq!(board.display.buffer.size, 800 * 4 * 960);
    let standing = accept(board, &[Move(0, 480)]);

    let mut board = standing;
    let release = [0x0004_8001, 0, 0];
    let allocate = [0x0004_0001, 8, 0, 16, 5];
    let tags = [&release[..], &Move(0, 481).tag(SET), &allocate].concat();
    let (outcome, _, words) = serve(&mut board, &message(&tags));
    assert_eq!((outcome, board), (0, standing));
    assert_eq!(words[4], 0x8000_0000);
    assert_eq!(words[7..10], [0x8000_0008, 0, 480]);
    assert_eq!(words[12..15], [0x8000_0008, 0, 0]);
}

/// The board whose stored settings have the changes, whether these are supported or not.
fn stored(changes: &[Change]) -> Board {
    let mut board = board();
    changes.iter().for_each(|change| change.apply(&mut board.display.settings));
    board
}

#[test]
fn stored_records_out_of_reach() {
    let wide = Logical(1_600, 480);
    let tall = Logical(800, 960);
    let records = [
        stored(&[Move(799, 0)]),
        stored(&[Move(1, 0)]),
        stored(&[wide, Move(801, 0)]),
        stored(&[wide, Move(800, 1)]),
        stored(&[Logical(799, 960), Move(1, 480)]),
        stored(&[wide, Move(u32::MAX - 799, 0)]),
        stored(&[wide, Move(u32::MAX, 0)]),
        stored(&[Move(0, 479)]),
        stored(&[Move(0, 1)]),
        stored(&[tall, Move(0, 481)]),
        stored(&[tall, Move(1, 480)]),
        stored(&[Logical(1_600, 479), Move(800, 1)]),
        stored(&[tall, Move(0, u32::MAX - 479)]),
        stored(&[tall, Move(0, u32::MAX)]),
        stored(&[Move(u32::MAX, u32::MAX)]),
    ];
    let rate = [0x0003_8002, 8, 0, 3, 700_000_000];
    let request = message(&[rate, Move(0, 0).tag(SET)].concat());
    for record in records {
        assert!(!is_valid(&record));
        let (mut served, mut lent) = (record, request.clone());
        assert_eq!(respond(&mut served, &mut lent), (14, 0));
        assert_eq!((served, &lent), (record, &request));
    }
}

#[test]
fn stored_records_at_the_last_offset() {
    let records = [
        stored(&[Logical(1_600, 480), Move(800, 0)]),
        stored(&[Logical(800, 960), Move(0, 480)]),
        stored(&[Logical(1_600, 960), Move(800, 480)]),
        stored(&[Logical(1_600, 479), Move(800, 0)]),
        stored(&[Logical(799, 960), Move(0, 480)]),
        stored(&[Physical(1, 1), Move(799, 479)]),
        stored(&[Physical(801, 481)]),
    ];
    for record in records {
        let Offset { x, y } = record.display.settings.offset;
        let mut served = record;
        let (outcome, _, words) = serve(&mut served, &message(&[0x0004_0009, 8, 0, 7, 7]));
        assert_eq!((outcome, served), (0, record));
        assert_eq!(words[1..7], [0x8000_0000, 0x0004_0009, 8, 0x8000_0008, x, y]);
    }
}
