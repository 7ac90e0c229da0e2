//! Serving a message on a board.

use crate::frame_buffer::{GroupTag, Operation, Reply};
use crate::outcome::{DONE, INVALID_BOARD, NOT_REQUEST, SHORT_REQUEST};
use crate::record::Board;
use crate::tags;
use crate::validity::is_valid;
use crate::walk::{
    put_word, size_of, step, word, Step, Tag, ANSWERED, CODE, FAILURE, HEADER, REQUEST, SUCCESS,
};

/// Answers the message in place and changes the board as its tags ask; the outcome and its place.
pub fn respond(board: &mut Board, lent: &mut [u8]) -> (u32, usize) {
    if !is_valid(board) {
        return (INVALID_BOARD, 0);
    }
    let size = match size_of(lent) {
        Ok(size) => size,
        Err(outcome) => return (outcome, 0),
    };
    let message = &mut lent[..size];
    if word(message, CODE) != REQUEST {
        return (NOT_REQUEST, 0);
    }
    match carry_out(board, message) {
        Ok(()) => {
            put_word(message, CODE, SUCCESS);
            (DONE, 0)
        }
        Err(fault) => {
            put_word(message, CODE, FAILURE);
            fault
        }
    }
}

/// Answers the tags: those outside the group in passing, the group once the walk has met its end.
fn carry_out(board: &mut Board, message: &mut [u8]) -> Result<(), (u32, usize)> {
    let mut operation = Operation::on(&board.display);
    let mut first_of_group = None;
    let mut at = HEADER;
    loop {
        let tag = match step(message, at) {
            Step::Tag(tag) => tag,
            Step::End => break,
            Step::Fault(outcome) => return Err((outcome, at)),
        };
        at = tag.next();
        if !tag.is_request() {
            continue;
        }
        if let Some(group) = GroupTag::of(tag.id) {
            check_request(&tag, group.request_length())?;
            operation.take(group, &message[tag.value()]);
            first_of_group.get_or_insert(tag.at);
        } else if let Some(length) = tags::request_length(tag.id) {
            check_request(&tag, length)?;
            let answer = tags::carry_out(board, tag.id, &mut message[tag.value()]);
            mark(message, &tag, answer);
        }
    }
    if let Some(first) = first_of_group {
        if let Some(reply) = operation.carry_out(&mut board.display) {
            answer_group(message, first, &reply);
        }
    }
    Ok(())
}

fn check_request(tag: &Tag, length: u32) -> Result<(), (u32, usize)> {
    if tag.size < length {
        return Err((SHORT_REQUEST, tag.at));
    }
    Ok(())
}

/// Makes the tag a response whose answer has this length.
fn mark(message: &mut [u8], tag: &Tag, answer: u32) {
    put_word(message, tag.at + 8, ANSWERED | answer);
}

/// Answers every group tag from the first of them on.
fn answer_group(message: &mut [u8], first: usize, reply: &Reply) {
    let mut at = first;
    while let Step::Tag(tag) = step(message, at) {
        at = tag.next();
        if !tag.is_request() {
            continue;
        }
        if let Some(group) = GroupTag::of(tag.id) {
            let answer = reply.store(group, &mut message[tag.value()]);
            mark(message, &tag, answer);
        }
    }
}
