//! A board record and messages written as words.

use interface::*;

/// A valid record: clock 3, the display and the heap are as on the bench, every kind of item is
/// there and absent, and no block is.
pub fn board() -> Board {
    let mut board = Board {
        facts: Facts {
            firmware: 0x6543_2100,
            model: 1,
            revision: 0x00A0_2082,
            mac: [0xB8, 0x27, 0xEB, 0x12, 0x34, 0x56],
            serial: 0x1122_3344_5566_7788,
            arm: Span { base: 0, size: 0x3B40_0000 },
            vc: Span { base: 0x3B40_0000, size: 0x04C0_0000 },
            dma: 0x7F35,
            characters: 7,
        },
        line: [0; 256],
        devices: [Device { state: State { exists: false, on: false }, timing: 9 }; 11],
        clocks: [Clock { state: State { exists: false, on: false }, rate: 5, min: 7, max: 1 }; 14],
        voltages: [Voltage { valid: false, value: 20_000, min: 3, max: 1 }; 4],
        temperature: Temperature { current: 42_000, max: 85_000 },
        display: display(),
        heap: Span { base: 0x3C80_0000, size: 0x0040_0000 },
        blocks: [Block::FREE; 32],
    };
    board.line[..7].copy_from_slice(b"quiet=1");
    let on = State { exists: true, on: true };
    board.devices[3] = Device { state: on, timing: 1_500 };
    board.clocks[2] = Clock { state: on, rate: 600_000_000, min: 600_000_000, max: 1_500_000_000 };
    board.voltages[0] = Voltage { valid: true, value: 1_199, min: 1_199, max: 1_199 };
    board.voltages[1] = Voltage { valid: true, value: 1_226, min: 1_226, max: 1_226 };
    board.voltages[2] = Voltage { valid: true, value: 1_250, min: 800, max: 1_400 };
    board
}

fn display() -> Display {
    let size = Size { width: 800, height: 480 };
    Display {
        region: Span { base: 0x3C00_0000, size: 8_388_608 },
        settings: Settings {
            physical: size,
            logical: size,
            offset: Offset { x: 0, y: 0 },
            depth: 32,
            order: 1,
            alpha: 2,
        },
        buffer: Span::NONE,
    }
}

pub fn bytes(words: &[u32]) -> Vec<u8> {
    words.iter().flat_map(|word| word.to_le_bytes()).collect()
}

/// The tags between a fitting header and an end word.
pub fn message(tags: &[u32]) -> Vec<u8> {
    let size = 4 * tags.len() as u32 + 12;
    bytes(&[&[size, 0][..], tags, &[0]].concat())
}

/// Serves the words; gives the outcome, the place and the words afterwards.
pub fn serve(board: &mut Board, request: &[u8]) -> (u32, usize, Vec<u32>) {
    let mut message = request.to_vec();
    let (outcome, place) = respond(board, &mut message);
    let words = message.chunks(4).map(|word| {
        let mut whole = [0; 4];
        whole[..word.len()].copy_from_slice(word);
        u32::from_le_bytes(whole)
    });
    (outcome, place, words.collect())
}
