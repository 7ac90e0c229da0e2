//! Taking messages apart: the lister and the reader.

use crate::outcome::{DONE, FEWER_STORED, NOT_ANSWERED, NOT_RESPONSE, NO_SUCH_TAG};
use crate::walk::{size_of, step, word, Step, Tag, ANSWERED, CODE, FAILURE, HEADER, SUCCESS};

/// What the lister gives: the tag's id, value size, tag word and the offset of its value.
#[derive(Clone, Copy, PartialEq, Eq, Debug, Default)]
pub struct Listed {
    pub outcome: u32,
    pub place: usize,
    pub id: u32,
    pub size: u32,
    pub word: u32,
    pub value: usize,
}

/// What the reader gives: the whole answer's length, and offset and number of the bytes shown.
#[derive(Clone, Copy, PartialEq, Eq, Debug, Default)]
pub struct Reading {
    pub outcome: u32,
    pub place: usize,
    pub answer: u32,
    pub value: usize,
    pub count: usize,
}

/// The tag of this index, counted from 0.
pub fn list(lent: &[u8], index: usize) -> Listed {
    let found = size_of(lent)
        .map_err(|outcome| (outcome, 0))
        .and_then(|size| find(&lent[..size], index, |_| true));
    match found {
        Ok(tag) => Listed {
            outcome: DONE,
            place: 0,
            id: tag.id,
            size: tag.size,
            word: tag.word,
            value: tag.value().start,
        },
        Err((outcome, place)) => Listed { outcome, place, ..Listed::default() },
    }
}

/// The first `wanted` bytes of the answer of the tag of this id and occurrence, counted from 0.
pub fn read(lent: &[u8], id: u32, occurrence: usize, wanted: usize) -> Reading {
    match answered_tag(lent, id, occurrence) {
        Ok(tag) => show(&tag, wanted),
        Err((outcome, place)) => Reading { outcome, place, ..Reading::default() },
    }
}

/// The outcome of the same reading, and its bytes: those wanted, as a part of `lent`, or on any refusal
/// the whole of `default`.
pub fn read_or<'a>(
    lent: &'a [u8],
    id: u32,
    occurrence: usize,
    wanted: usize,
    default: &'a [u8],
) -> (u32, &'a [u8]) {
    let reading = read(lent, id, occurrence, wanted);
    let shown = match reading.outcome {
        DONE => &lent[reading.value..reading.value + reading.count],
        _ => default,
    };
    (reading.outcome, shown)
}

fn answered_tag(lent: &[u8], id: u32, occurrence: usize) -> Result<Tag, (u32, usize)> {
    let size = size_of(lent).map_err(|outcome| (outcome, 0))?;
    if !matches!(word(lent, CODE), SUCCESS | FAILURE) {
        return Err((NOT_RESPONSE, 0));
    }
    let tag = find(&lent[..size], occurrence, |tag| tag.id == id)?;
    if tag.is_request() {
        return Err((NOT_ANSWERED, 0));
    }
    Ok(tag)
}

fn show(tag: &Tag, wanted: usize) -> Reading {
    let answer = tag.word & !ANSWERED;
    if wanted > answer.min(tag.size) as usize {
        return Reading { outcome: FEWER_STORED, ..Reading::default() };
    }
    Reading { outcome: DONE, place: 0, answer, value: tag.value().start, count: wanted }
}

/// The tag before which `skipped` others are sought ones, or the outcome and place that end the walk.
fn find(
    message: &[u8],
    mut skipped: usize,
    sought: impl Fn(&Tag) -> bool,
) -> Result<Tag, (u32, usize)> {
    let mut at = HEADER;
    loop {
        let tag = match step(message, at) {
            Step::Tag(tag) => tag,
            Step::End => return Err((NO_SUCH_TAG, 0)),
            Step::Fault(outcome) => return Err((outcome, at)),
        };
        if sought(&tag) {
            if skipped == 0 {
                return Ok(tag);
            }
            skipped -= 1;
        }
        at = tag.next();
    }
}
