//! The bench record, as far as the rules name it.

use crate::panics;
use interface::{Block, Board, Offset, Settings, Size, Span, State};

/// Whether the record is valid, has what the rules name, and shows each rule.
pub fn is_bench(board: &Board) -> bool {
    let size = Size { width: 800, height: 480 };
    let offset = Offset { x: 0, y: 0 };
    let settings =
        Settings { physical: size, logical: size, offset, depth: 32, order: 1, alpha: 2 };
    let clock = board.clocks[2];
    // A panic here comes again in a case, and is shown there.
    panics::caught(|| interface::is_valid(board)).unwrap_or(true)
        && board.display.region == Span { base: 0x3C00_0000, size: 8_388_608 }
        && board.display.settings == settings
        && board.display.buffer == Span::NONE
        && board.heap == Span { base: 0x3C80_0000, size: 0x0040_0000 }
        && board.blocks == [Block::FREE; 32]
        && clock.state == State { exists: true, on: true }
        && (clock.min, clock.rate, clock.max) == (600_000_000, 600_000_000, 1_500_000_000)
        && shows_each_rule(board)
}

/// Whether items are there and absent, and what should differ does.
fn shows_each_rule(board: &Board) -> bool {
    let both = |exist: &mut dyn Iterator<Item = bool>| {
        let exist: Vec<bool> = exist.collect();
        exist.contains(&true) && exist.contains(&false)
    };
    let Board { facts, devices, clocks, voltages, .. } = board;
    let mac_differs = (1..6).all(|at| !facts.mac[..at].contains(&facts.mac[at]));
    both(&mut devices.iter().map(|device| device.state.exists))
        && both(&mut clocks.iter().map(|clock| clock.state.exists))
        && both(&mut voltages.iter().map(|voltage| voltage.valid))
        && (1..4).all(|at| !voltages[..at].contains(&voltages[at]))
        && mac_differs
        && (1..256).contains(&facts.characters)
}
