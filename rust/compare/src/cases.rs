//! Random cases.

use crate::asking::ask;
use crate::boards;
use crate::building::{add, any_cursor, building};
use crate::case::{Call, Case};
use crate::damage;
use crate::messages::{self, Draft};
use crate::random::Random;
use crate::spoiled;
use crate::walk::{tags, Tag};
use interface::Board;

/// Up to how many tags a message is made a request again.
const MOST_CLEARED: usize = 40;

pub fn generate(random: &mut Random, bench: &Board) -> Case {
    let mut board = if random.one_in(8) { *bench } else { boards::valid(random) };
    if random.one_in(6) {
        spoiled::spoil(random, &mut board);
    }
    let address = if random.one_in(2) { 0 } else { random.below(16) as usize };
    let mut case = Case { board, address, calls: Vec::new() };
    match random.below(20) {
        0..=10 => serving(random, &mut case),
        11..=14 => building(random, &mut case),
        15..=17 => reading(random, &mut case),
        _ => anything(random, &mut case),
    }
    case
}

fn message(random: &mut Random, board: &Board) -> Draft {
    if random.one_in(1_000) {
        messages::long_request(random, board)
    } else {
        messages::request(random, board)
    }
}

/// One to three messages in a row on the record that the one before left.
fn serving(random: &mut Random, case: &mut Case) {
    let mut board = case.board;
    for _ in 0..=random.pick(&[0, 0, 1, 2]) {
        let mut draft = message(random, &board);
        board.blocks = draft.memory.blocks;
        if random.one_in(3) {
            damage::damage(random, &mut draft);
        }
        let seen = tags(&draft.bytes);
        case.calls.push(Call::Lend(draft.bytes));
        case.calls.push(Call::Serve);
        if random.one_in(2) {
            ask(random, &mut case.calls, &seen);
        }
        if random.one_in(15) {
            serve_again(random, &mut case.calls, &seen);
        }
    }
}

/// Serves the answered message once more: as it is, or made a request again.
fn serve_again(random: &mut Random, calls: &mut Vec<Call>, seen: &[Tag]) {
    if random.below(3) > 0 {
        calls.push(Call::Write { at: 4, word: 0 });
    }
    if seen.len() <= MOST_CLEARED && random.one_in(2) {
        calls.extend(seen.iter().map(|tag| Call::Write { at: tag.at + 8, word: 0 }));
    }
    calls.push(Call::Serve);
}

fn reading(random: &mut Random, case: &mut Case) {
    let mut draft = message(random, &case.board);
    damage::make_reply(random, &mut draft);
    if random.one_in(3) {
        damage::damage(random, &mut draft);
    }
    let seen = tags(&draft.bytes);
    case.calls.push(Call::Lend(draft.bytes));
    ask(random, &mut case.calls, &seen);
    ask(random, &mut case.calls, &seen);
}

fn anything(random: &mut Random, case: &mut Case) {
    let bytes = damage::rubbish(random);
    let length = bytes.len() as u32;
    let seen = tags(&bytes);
    case.calls.push(Call::Lend(bytes));
    for _ in 0..random.below(4) {
        let call = match random.below(4) {
            0 => Call::Serve,
            1 => Call::Start,
            2 => Call::Finish { cursor: any_cursor(random, length) },
            _ => add(random, 40),
        };
        case.calls.push(call);
        ask(random, &mut case.calls, &seen);
    }
    ask(random, &mut case.calls, &seen);
}
