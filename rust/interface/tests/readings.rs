//! Messages on which a wrong reading of the rules would show.

mod common;

use common::{board, bytes, message, serve};
use interface::*;

#[test]
fn the_whole_length_is_reported() {
    let (_, _, words) = serve(&mut board(), &message(&[0x0005_0001, 2, 0, 0]));
    assert_eq!((words[4], words[5]), (0x8000_0007, 0x0000_7571));
}

#[test]
fn a_value_size_is_rounded_without_wrapping() {
    let request = message(&[0x0001_0001, 4, 0, 0, 0x0001_0002, 0xFFFF_FFFF, 0, 9]);
    let (outcome, place, words) = serve(&mut board(), &request);
    assert_eq!((outcome, place, words[1], words[5]), (5, 24, 0x8000_0001, 1));
    assert_eq!(words[6..], [0x0001_0002, 0xFFFF_FFFF, 0, 9, 0]);
}

#[test]
fn the_request_is_read_before_the_answer_is_stored() {
    let mut board = board();
    let (_, _, words) = serve(&mut board, &message(&[0x0002_8001, 8, 0, 3, 0]));
    assert_eq!((words[5], words[6]), (3, 0));
    assert!(!board.devices[3].state.on);
    let (_, _, words) = serve(&mut board, &message(&[0x0003_8003, 8, 0, 3, 900]));
    assert_eq!((words[5], words[6], board.voltages[2].value), (3, 900, 900));
}

#[test]
fn a_later_test_or_fault_stops_the_group() {
    let set = [0x0004_8005, 4, 0, 16];
    let test = [0x0004_4005, 4, 0, 8];
    let get = [0x0003_0002, 8, 0, 3, 0];
    let mut mixed = board();
    let (outcome, _, words) = serve(&mut mixed, &message(&[&set[..], &get, &test].concat()));
    assert_eq!((outcome, words[1]), (0, 0x8000_0000));
    assert_eq!(words[2..6], set);
    assert_eq!(words[6..11], [0x0003_0002, 8, 0x8000_0008, 3, 600_000_000]);
    assert_eq!(words[11..15], test);
    assert_eq!(mixed, board());

    let mut faulty = board();
    let short = [0x0003_0002, 0, 0];
    let (outcome, place, words) = serve(&mut faulty, &message(&[&set[..], &get, &short].concat()));
    assert_eq!((outcome, place, words[1]), (6, 44, 0x8000_0001));
    assert_eq!((words[4], words[8]), (0, 0x8000_0008));
    assert_eq!(faulty, board());
}

#[test]
fn the_rest_of_a_value_stays() {
    let request = message(&[0x0001_0003, 9, 0, 0x5555_5555, 0x6666_6666, 0x7777_7777]);
    let (_, _, words) = serve(&mut board(), &request);
    assert_eq!(words[4..8], [0x8000_0006, 0x12EB_27B8, 0x6666_5634, 0x7777_7777]);
}

#[test]
fn a_maximum_below_the_origin_rounds_down() {
    let (_, _, words) = serve(&mut board(), &message(&[0x0003_0005, 8, 0, 1, 0]));
    assert_eq!(words[6], 0xFFFF_FFFF);
}

#[test]
fn tests_answer_the_proposal_or_what_stands() {
    let tests = |depth| {
        let tags = [0x0004_4005, 4, 0, 16, 0x0004_4004, 8, 0, 100, 50, 0x0004_4005, 4, 0, depth];
        let mut board = board();
        let (outcome, _, words) = serve(&mut board, &message(&tags));
        assert_eq!((outcome, board), (0, common::board()));
        [words[5], words[9], words[10], words[14]]
    };
    assert_eq!(tests(8), [8, 100, 50, 8]);
    assert_eq!(tests(9), [32, 800, 480, 32]);
}

#[test]
fn a_refused_operation_changes_nothing() {
    let mut board = board();
    serve(&mut board, &message(&[0x0004_0001, 8, 0, 4096, 0]));
    let standing = board;
    let larger = [0x0004_8004, 8, 0, 800, 481];
    let (_, _, words) = serve(&mut board, &message(&larger));
    assert_eq!((words[4], words[5], words[6]), (0x8000_0008, 800, 480));
    assert_eq!(board, standing);

    let release = [0x0004_8001, 0, 0];
    let unsupported = [0x0004_8006, 4, 0, 2];
    let (_, _, words) = serve(&mut board, &message(&[&release[..], &unsupported].concat()));
    assert_eq!((words[4], words[7], words[8]), (0x8000_0000, 0x8000_0004, 1));
    assert_eq!(board, standing);

    let (_, _, words) = serve(&mut board, &message(&[&larger[..], &release].concat()));
    assert_eq!((words[6], board.display.buffer), (481, Span::NONE));
}

#[test]
fn invalid_records_are_refused_untouched() {
    let breaks: [fn(&mut Board); 8] = [
        |board| board.facts.characters = 257,
        |board| board.facts.dma = 0x1_0000,
        |board| board.devices[0].state.on = true,
        |board| board.clocks[2].rate = 599_999_999,
        |board| board.voltages[2].max = 10_001,
        |board| board.display.region.size = 0xC400_0000,
        |board| board.display.settings.alpha = 3,
        |board| board.display.buffer.base = 1,
    ];
    for change in breaks {
        let mut changed = board();
        change(&mut changed);
        let before = changed;
        assert_eq!(serve(&mut changed, &bytes(&[12, 0, 0])), (14, 0, vec![12, 0, 0]));
        assert_eq!(changed, before);
    }
}

#[test]
fn reading_a_reply() {
    let mut reply = message(&[0x0001_0003, 4, 0, 0, 0x0001_0003, 0, 0]);
    assert_eq!(read(&reply, 0x0001_0003, 0, 0).outcome, 10);
    respond(&mut board(), &mut reply);
    let shown = Reading { outcome: 0, place: 0, answer: 6, value: 20, count: 4 };
    assert_eq!(read(&reply, 0x0001_0003, 0, 4), shown);
    assert_eq!(read(&reply, 0x0001_0003, 0, 5).outcome, 13);
    assert_eq!(read(&reply, 0x0001_0003, 1, 0), Reading { value: 36, count: 0, ..shown });
    assert_eq!(read(&reply, 0x0001_0003, 2, 0).outcome, 11);
    assert_eq!(read(&reply, 0, 0, 0).outcome, 11);
}

#[test]
fn reading_with_a_default() {
    let default = [0xD1, 0xD2, 0xD3];
    // The same bytes at the same address, so none is a copy.
    let check = |lent: &[u8], (id, occurrence, wanted), outcome, shown: &[u8]| {
        let (given, bytes) = read_or(lent, id, occurrence, wanted, &default);
        assert_eq!((given, bytes.as_ptr_range()), (outcome, shown.as_ptr_range()));
    };

    // Id 7: 5 answer bytes in a value of 8, 6 in one of 4, a tag unanswered. Id 9: an empty answer.
    let long = [7, 8, 0x8000_0005, 0x0403_0201, 0x0807_0605];
    let short = [7, 4, 0x8000_0006, 0x0C0B_0A09];
    let rest = [7, 4, 0, 0, 9, 0, 0x8000_0000];
    let mut request = message(&[&long[..], &short, &rest].concat());
    let mut reply = request.clone();
    reply[7] = 0x80;
    let end = reply.len() - 4;

    assert_eq!(read_or(&reply, 7, 0, 5, &default), (0, &[1, 2, 3, 4, 5][..]));
    assert_eq!(read_or(&reply, 7, 2, 5, &default), (12, &default[..]));
    check(&reply, (7, 0, 5), 0, &reply[20..25]);
    check(&reply, (7, 0, 2), 0, &reply[20..22]);
    check(&reply, (7, 1, 4), 0, &reply[40..44]);
    check(&reply[..11], (7, 0, 5), 1, &default);
    check(&reply[..end], (7, 0, 5), 2, &default);
    check(&request, (7, 0, 5), 10, &default);
    check(&reply, (7, 3, 4), 11, &default);
    check(&reply, (8, 0, 4), 11, &default);
    check(&reply, (7, 2, 4), 12, &default);
    check(&reply, (7, 0, 6), 13, &default);
    check(&reply, (7, 1, 5), 13, &default);
    check(&reply, (9, 0, usize::MAX), 13, &default);

    // Nothing wanted: an empty part at the value, on a refusal the default all the same.
    check(&reply, (7, 0, 0), 0, &reply[20..20]);
    check(&reply, (9, 0, 0), 0, &reply[end..end]);
    check(&reply, (7, 2, 0), 12, &default);
    check(&reply[..11], (7, 0, 0), 1, &default);

    // The code word of a failure reads alike.
    request[4..8].copy_from_slice(&[1, 0, 0, 0x80]);
    check(&request, (7, 0, 5), 0, &request[20..25]);

    // A fault shows only where the walk comes to it.
    let endless = bytes(&[24, 0x8000_0000, 7, 4, 0x8000_0004, 1]);
    check(&endless, (7, 0, 4), 0, &endless[20..24]);
    check(&endless, (7, 1, 4), 4, &default);
    let over = bytes(&[36, 0x8000_0001, 7, 4, 0x8000_0004, 1, 7, 4, 0x8000_0004]);
    check(&over, (7, 0, 4), 0, &over[20..24]);
    check(&over, (7, 1, 4), 5, &default);
}

#[test]
fn building_refuses_in_order() {
    let mut buffer = [0xAA; 48];
    assert_eq!(start(&buffer[..15]), (7, 0));
    let mut at = |mut cursor, id, size, request: &[u8]| {
        let outcome = add(&mut buffer, &mut cursor, id, size, request);
        (outcome, cursor)
    };
    assert_eq!(at(4, 0, 0, &[]), (9, 4));
    assert_eq!(at(10, 1, 0, &[]), (9, 10));
    assert_eq!(at(52, 1, 0, &[]), (9, 52));
    assert_eq!(at(48, 0, 0, &[]), (8, 48));
    assert_eq!(at(48, 1, 0, &[]), (7, 48));
    assert_eq!(at(8, 1, 1, &[1, 2]), (8, 8));
    assert_eq!(at(8, 1, u32::MAX, &[1, 2]), (7, 8));
    assert_eq!(at(8, 1, 25, &[1, 2]), (7, 8));
    assert_eq!(at(8, 1, 23, &[1, 2]), (0, 44));
    assert_eq!(finish(&mut buffer, 44), (0, 48));
    assert_eq!(buffer[8..24], [1, 0, 0, 0, 23, 0, 0, 0, 0, 0, 0, 0, 1, 2, 0, 0]);
    assert_eq!(finish(&mut buffer, 48), (7, 0));
}
