//! Building requests: start, add tags, finish.

use crate::outcome::{BAD_CURSOR, BAD_TAG, DONE, NO_ROOM};
use crate::walk::{put_word, CODE, END, HEADER, LONGEST, REQUEST, TAG_HEADER};

/// A finished message's size is a multiple of this.
const MESSAGE_STEP: usize = 16;

fn room(buffer: &[u8]) -> usize {
    buffer.len().min(LONGEST)
}

/// The size of the message whose tags end at the cursor.
fn finished_size(cursor: usize) -> usize {
    (cursor + END).next_multiple_of(MESSAGE_STEP)
}

fn is_cursor(cursor: usize, room: usize) -> bool {
    (HEADER..=room).contains(&cursor) && cursor % 4 == 0
}

/// The outcome and the first cursor.
pub fn start(buffer: &[u8]) -> (u32, usize) {
    if room(buffer) < finished_size(HEADER) {
        return (NO_ROOM, 0);
    }
    (DONE, HEADER)
}

/// Adds a tag with a value of `size` bytes: the request, then zeros.
pub fn add(buffer: &mut [u8], cursor: &mut usize, id: u32, size: u32, request: &[u8]) -> u32 {
    let (at, room, size) = (*cursor, room(buffer), size as usize);
    if !is_cursor(at, room) {
        return BAD_CURSOR;
    }
    if id == 0 || request.len() > size {
        return BAD_TAG;
    }
    if size > room {
        return NO_ROOM;
    }
    let value = at + TAG_HEADER;
    let next = (value + size).next_multiple_of(4);
    if finished_size(next) > room {
        return NO_ROOM;
    }
    put_word(buffer, at, id);
    put_word(buffer, at + 4, size as u32);
    put_word(buffer, at + 8, 0);
    let zeros = value + request.len();
    buffer[value..zeros].copy_from_slice(request);
    buffer[zeros..next].fill(0);
    *cursor = next;
    DONE
}

/// Ends the message; the outcome and its size.
pub fn finish(buffer: &mut [u8], cursor: usize) -> (u32, usize) {
    let room = room(buffer);
    if !is_cursor(cursor, room) {
        return (BAD_CURSOR, 0);
    }
    let size = finished_size(cursor);
    if size > room {
        return (NO_ROOM, 0);
    }
    buffer[cursor..size].fill(0);
    put_word(buffer, 0, size as u32);
    put_word(buffer, CODE, REQUEST);
    (DONE, size)
}
