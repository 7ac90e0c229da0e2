//! The C library, called from Rust. Every pointer passed comes from a slice, with its length, or from a
//! reference, and nothing lent to be written overlaps anything else.

use std::mem::MaybeUninit;
use std::slice;

pub use interface::record::*;
pub use interface::{Listed, Reading};

mod c {
    use interface::record::Board;

    #[repr(C)]
    pub struct Bytes {
        pub bytes: *const u8,
        pub length: usize,
    }

    extern "C" {
        pub fn vc_start(buffer: *const u8, length: usize, cursor: *mut u32) -> u32;
        pub fn vc_add(
            buffer: *mut u8,
            length: usize,
            cursor: *mut u32,
            id: u32,
            size: u32,
            request: *const u8,
            request_length: usize,
        ) -> u32;
        pub fn vc_finish(buffer: *mut u8, length: usize, cursor: u32, size: *mut u32) -> u32;
        pub fn vc_list(
            message: *const u8,
            length: usize,
            index: usize,
            place: *mut u32,
            id: *mut u32,
            size: *mut u32,
            word: *mut u32,
            value: *mut u32,
        ) -> u32;
        pub fn vc_read(
            message: *const u8,
            length: usize,
            id: u32,
            occurrence: usize,
            wanted: usize,
            place: *mut u32,
            answer: *mut u32,
            value: *mut u32,
            count: *mut u32,
        ) -> u32;
        pub fn vc_read_or(
            message: *const u8,
            length: usize,
            id: u32,
            occurrence: usize,
            wanted: usize,
            shown: *mut Bytes,
        ) -> u32;
        pub fn vc_bench(board: *mut Board);
        pub fn vc_serve(board: *mut Board, message: *mut u8, length: usize, place: *mut u32)
            -> u32;
    }
}

/// What a number given back holds where a call forgets to give it.
const UNSET: u32 = 0xDEAD_BEEF;

/// A cursor as it crosses: a number of 32 bits.
fn crossing(cursor: usize) -> u32 {
    u32::try_from(cursor).expect("a cursor has 32 bits")
}

/// The outcome and the first cursor.
pub fn start(buffer: &[u8]) -> (u32, usize) {
    let mut cursor = UNSET;
    let outcome = unsafe { c::vc_start(buffer.as_ptr(), buffer.len(), &mut cursor) };
    (outcome, cursor as usize)
}

/// Adds a tag and moves the cursor behind it.
pub fn add(buffer: &mut [u8], cursor: &mut usize, id: u32, size: u32, request: &[u8]) -> u32 {
    let (start, length) = (buffer.as_mut_ptr(), buffer.len());
    let mut at = crossing(*cursor);
    let outcome =
        unsafe { c::vc_add(start, length, &mut at, id, size, request.as_ptr(), request.len()) };
    *cursor = at as usize;
    outcome
}

/// The outcome and the message's size.
pub fn finish(buffer: &mut [u8], cursor: usize) -> (u32, usize) {
    let (start, length) = (buffer.as_mut_ptr(), buffer.len());
    let mut size = UNSET;
    let outcome = unsafe { c::vc_finish(start, length, crossing(cursor), &mut size) };
    (outcome, size as usize)
}

/// The tag of this index, counted from 0.
pub fn list(message: &[u8], index: usize) -> Listed {
    let [mut place, mut id, mut size, mut word, mut value] = [UNSET; 5];
    let outcome = unsafe {
        c::vc_list(
            message.as_ptr(),
            message.len(),
            index,
            &mut place,
            &mut id,
            &mut size,
            &mut word,
            &mut value,
        )
    };
    Listed { outcome, place: place as usize, id, size, word, value: value as usize }
}

/// The first `wanted` bytes of the answer of the tag of this id and occurrence.
pub fn read(message: &[u8], id: u32, occurrence: usize, wanted: usize) -> Reading {
    let [mut place, mut answer, mut value, mut count] = [UNSET; 4];
    let outcome = unsafe {
        c::vc_read(
            message.as_ptr(),
            message.len(),
            id,
            occurrence,
            wanted,
            &mut place,
            &mut answer,
            &mut value,
            &mut count,
        )
    };
    Reading { outcome, place: place as usize, answer, value: value as usize, count: count as usize }
}

/// The outcome, and the first `wanted` bytes of the answer where they stand in the message, or on a
/// refusal the default.
pub fn read_or<'a>(
    message: &'a [u8],
    id: u32,
    occurrence: usize,
    wanted: usize,
    default: &'a [u8],
) -> (u32, &'a [u8]) {
    let (start, length) = (message.as_ptr(), message.len());
    let mut shown = c::Bytes { bytes: default.as_ptr(), length: default.len() };
    let outcome = unsafe { c::vc_read_or(start, length, id, occurrence, wanted, &mut shown) };
    (outcome, unsafe { slice::from_raw_parts(shown.bytes, shown.length) })
}

/// The bench record.
pub fn bench() -> Board {
    let mut board = MaybeUninit::<Board>::zeroed();
    unsafe {
        c::vc_bench(board.as_mut_ptr());
        board.assume_init()
    }
}

/// Serves the message on the board; the outcome and its place.
pub fn serve(board: &mut Board, message: &mut [u8]) -> (u32, usize) {
    let mut place = UNSET;
    let outcome = unsafe { c::vc_serve(board, message.as_mut_ptr(), message.len(), &mut place) };
    (outcome, place as usize)
}
