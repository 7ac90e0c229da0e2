//! The cases B1 to B10 and the others that are run.

mod common;

use common::{board, bytes, message, serve};
use interface::*;

#[test]
fn b1_an_empty_message() {
    let mut board = board();
    assert!(is_valid(&board));
    assert_eq!(serve(&mut board, &bytes(&[12, 0, 0])), (0, 0, vec![12, 0x8000_0000, 0]));
    assert_eq!(board, common::board());
}

#[rustfmt::skip]
const SET_UP: [u32; 20] = [
    80, 0,
    0x0004_8003, 8, 0, 640, 480,
    0x0004_8004, 8, 0, 640, 480,
    0x0004_8005, 4, 0, 24,
    0, 0, 0, 0,
];

#[test]
fn b2_b3_a_frame_buffer_in_two_messages() {
    let mut board = board();
    let mut answered = SET_UP;
    answered[1] = 0x8000_0000;
    answered[4] = 0x8000_0008;
    answered[9] = 0x8000_0008;
    answered[14] = 0x8000_0004;
    assert_eq!(serve(&mut board, &bytes(&SET_UP)), (0, 0, answered.to_vec()));
    assert_eq!(board.display.settings.logical, Size { width: 640, height: 480 });
    assert_eq!(board.display.buffer, Span::NONE);

    let reply = serve(&mut board, &bytes(&[32, 0, 0x0004_0001, 8, 0, 16, 0, 0]));
    let words = vec![32, 0x8000_0000, 0x0004_0001, 8, 0x8000_0008, 0x3C00_0000, 0x000E_1000, 0];
    assert_eq!(reply, (0, 0, words));
    assert_eq!(board.display.buffer, Span { base: 0x3C00_0000, size: 0x000E_1000 });
    assert!(is_valid(&board));
}

fn pitch_of(width: u32, depth: u32) -> u32 {
    let set = [0x0004_8004, 8, 0, width, 1, 0x0004_8005, 4, 0, depth, 0x0004_0008, 4, 0, 0];
    let (outcome, _, words) = serve(&mut board(), &message(&set));
    assert_eq!((outcome, words[13]), (0, 0x8000_0004));
    words[14]
}

#[test]
fn b4_b5_pitch() {
    assert_eq!(pitch_of(641, 24), 1_952);
    assert_eq!(pitch_of(1, 8), 32);
}

#[test]
fn b6_b7_voltage_offsets() {
    let offset = |tag, voltage| {
        let (outcome, _, words) = serve(&mut board(), &message(&[tag, 8, 0, voltage, 0]));
        assert_eq!((outcome, words[4], words[5]), (0, 0x8000_0008, voltage));
        words[6] as i32
    };
    assert_eq!((offset(0x0003_0005, 1), offset(0x0003_0008, 1)), (-1, 0));
    assert_eq!((offset(0x0003_0005, 2), offset(0x0003_0008, 2)), (1, 2));
}

#[test]
fn b8_a_short_value_for_the_mac() {
    let (outcome, _, words) = serve(&mut board(), &message(&[0x0001_0003, 4, 0, 0]));
    assert_eq!((outcome, words[4], words[5]), (0, 0x8000_0006, 0x12EB_27B8));
}

#[test]
fn b9_a_value_size_that_wraps() {
    let request = message(&[0x0001_0003, 0xFFFF_FFFD, 0]);
    let mut failed = request.clone();
    failed[4..8].copy_from_slice(&0x8000_0001u32.to_le_bytes());
    let mut served = request.clone();
    assert_eq!(respond(&mut board(), &mut served), (5, 8));
    assert_eq!(served, failed);
    assert_eq!(list(&request, 0), Listed { outcome: 5, place: 8, ..Listed::default() });
}

#[test]
fn b10_a_rate_above_the_maximum() {
    let mut board = board();
    let request = message(&[0x0003_8002, 8, 0, 3, 2_000_000_000]);
    let (outcome, _, words) = serve(&mut board, &request);
    assert_eq!((outcome, words[5], words[6]), (0, 3, 1_500_000_000));
    assert_eq!(board.clocks[2].rate, 1_500_000_000);
}

#[test]
fn lent_length_and_size() {
    assert_eq!(respond(&mut board(), &mut [0; 11]), (1, 0));
    let size = |size: u32| {
        let mut lent = vec![0; 70_000];
        lent[..4].copy_from_slice(&size.to_le_bytes());
        respond(&mut board(), &mut lent).0
    };
    assert_eq!([8, 12, 14, 65_536, 65_540].map(size), [2, 0, 2, 0, 2]);
    assert_eq!(respond(&mut board(), &mut bytes(&[16, 0, 0])), (2, 0));
}

#[test]
fn most_tags() {
    let mut buffer = vec![0xAA; 70_000];
    let (_, mut cursor) = start(&buffer);
    let mut count = 0;
    while add(&mut buffer, &mut cursor, 7, 0, &[]) == 0 {
        count += 1;
    }
    assert_eq!(count, 5_460);
    assert_eq!(finish(&mut buffer, cursor), (0, 65_536));
    assert_eq!(list(&buffer, 5_459).id, 7);
    assert_eq!(list(&buffer, 5_460).outcome, 11);
    assert!(buffer[65_536..].iter().all(|byte| *byte == 0xAA));
}

#[test]
fn alignments() {
    let allocate = |alignment| {
        let mut board = board();
        let (_, _, words) = serve(&mut board, &message(&[0x0004_0001, 8, 0, alignment, 7]));
        assert_eq!(words[4], 0x8000_0008);
        assert_eq!(Span { base: words[5], size: words[6] }, board.display.buffer);
        words[6]
    };
    assert_eq!([0, 24, 1].map(allocate), [0, 0, 800 * 4 * 480]);
}
