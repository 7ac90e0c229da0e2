//! What a case costs its reader: fewer calls, bytes and digits are plainer.

use crate::case::{Call, Case};
use crate::fields;
use interface::Board;

/// What a call costs apart from its numbers: more than some bytes.
const CALL: u64 = 1_000;
/// What a number costs apart from its digits, where it need not be there.
const NUMBER: u64 = 16;

/// How many hexadecimal digits are not 0.
pub fn digits(number: u64) -> u64 {
    (0..16).filter(|digit| number >> (4 * digit) & 15 != 0).count() as u64
}

pub fn cost(case: &Case, bench: &Board) -> u64 {
    let board = fields::values(&case.board).into_iter().zip(fields::values(bench));
    let differing = board.filter(|(own, bench)| own.1 != bench.1);
    let fields = differing.map(|(own, _)| NUMBER + digits(own.1)).sum::<u64>();
    let address = if case.address == 0 { 0 } else { NUMBER };
    fields + address + case.calls.iter().map(|call| CALL + call_cost(call)).sum::<u64>()
}

fn call_cost(call: &Call) -> u64 {
    let cursor = |cursor: &Option<usize>| cursor.map_or(0, |cursor| NUMBER + digits(cursor as u64));
    match call {
        Call::Lend(lent) => bytes_cost(lent),
        Call::Write { at, word } => digits(*at as u64) + digits(u64::from(*word)),
        Call::Serve | Call::Start => 0,
        Call::Add { cursor: at, id, size, request } => {
            cursor(at) + digits(u64::from(*id)) + digits(u64::from(*size)) + bytes_cost(request)
        }
        Call::Finish { cursor: at } => cursor(at),
        Call::List { index } => digits(*index as u64),
        Call::Read { id, occurrence, wanted } => reading_cost(*id, *occurrence, *wanted),
        Call::ReadOr { id, occurrence, wanted, default } => {
            reading_cost(*id, *occurrence, *wanted) + digits(*default as u64)
        }
    }
}

fn reading_cost(id: u32, occurrence: usize, wanted: usize) -> u64 {
    digits(u64::from(id)) + digits(occurrence as u64) + digits(wanted as u64)
}

fn bytes_cost(bytes: &[u8]) -> u64 {
    let digits = |byte: &u8| u64::from(byte & 0xF != 0) + u64::from(byte & 0xF0 != 0);
    8 * bytes.len() as u64 + bytes.iter().map(digits).sum::<u64>()
}
