//! Kinds of messages served.

use super::{Reached, Thing};
use crate::known;
use crate::sides::Side;
use crate::walk::{size_of, word, Tag};
use interface::Board;

const LONGEST: &str = "message of 65,536 bytes done";
const LONGEST_NO_END: &str = "message of 65,536 bytes without an end";
const TOO_LONG: &str = "size of 65,540 with as many bytes lent";
const HUGE_VALUE: &str = "value size from 0xFFFFFFFD on runs over";
const HALF_VALUE: &str = "value size of 0x80000000 runs over";
const SHORT_BY_ONE: &str = "value one byte short of the request";
const BESIDE: &str = "unknown id beside the group's";
const RESPONSE: &str = "group tag that came as a response";
const THIRD_0: &str = "set rate with a third word 0";
const THIRD_1: &str = "set rate with a third word 1";
const FAST: &str = "set rate of a clock up to 0xFFFFFFFF";
const RUN_END: &str = "five unknown tags of one value size before the end";
const RUN_FAULT: &str = "five unknown tags of one value size before a fault";
const RUN_KNOWN: &str = "five unknown tags of one value size before a known one";

pub fn all() -> impl Iterator<Item = Thing> {
    let sizes = [LONGEST, LONGEST_NO_END, TOO_LONG, HUGE_VALUE, HALF_VALUE, SHORT_BY_ONE];
    let tags = [BESIDE, RESPONSE, THIRD_0, THIRD_1, FAST];
    let runs = [RUN_END, RUN_FAULT, RUN_KNOWN];
    sizes.into_iter().chain(tags).chain(runs).map(Thing::Kind)
}

impl Reached {
    /// Counts the kinds of a message whose walk meets these tags.
    pub fn count_message(&mut self, before: &Side, after: &Side, tags: &[Tag]) {
        let lent = before.bytes.lent();
        let [outcome, place, ..] = after.numbers;
        let size = if lent.len() < 4 { 0 } else { word(lent, 0) as usize };
        self.count_if(outcome == 0 && size == 65_536, LONGEST);
        self.count_if(outcome == 4 && size == 65_536, LONGEST_NO_END);
        self.count_if(outcome == 2 && size == 65_540 && lent.len() >= size, TOO_LONG);
        if outcome == 5 && size_of(lent).is_some_and(|size| place as usize + 12 <= size) {
            let value = word(lent, place as usize + 4);
            self.count_if(value >= 0xFFFF_FFFD, HUGE_VALUE);
            self.count_if(value == 0x8000_0000, HALF_VALUE);
        }
        if matches!(outcome, 0 | 4 | 5) {
            tags.iter().for_each(|tag| self.count_tag(&before.board, lent, tag));
            self.count_run(tags, outcome);
        }
        if outcome == 6 {
            let length = word(lent, place as usize + 4);
            let known = known::of(word(lent, place as usize));
            self.count_if(known.is_some_and(|known| length + 1 == known.request), SHORT_BY_ONE);
        }
    }

    fn count_tag(&mut self, board: &Board, lent: &[u8], tag: &Tag) {
        let group = tag.id >> 16 == 4;
        let known = known::of(tag.id).is_some();
        self.count_if(group && !known && tag.is_request(), BESIDE);
        self.count_if(group && known && !tag.is_request(), RESPONSE);
        if tag.id != known::SET_CLOCK_RATE || !tag.is_request() || tag.size < 8 {
            return;
        }
        let value = &lent[tag.value()];
        let item = word(value, 0).wrapping_sub(1) as usize;
        let clock = board.clocks.get(item).filter(|clock| clock.state.exists);
        self.count_if(clock.is_some_and(|clock| clock.max == u32::MAX), FAST);
        if clock.is_some() && tag.size >= 12 {
            self.count_if(word(value, 8) == 0, THIRD_0);
            self.count_if(word(value, 8) == 1, THIRD_1);
        }
    }

    /// Counts what stands behind five or more unknown tags of one value size that is not 0.
    fn count_run(&mut self, tags: &[Tag], outcome: u64) {
        let mut length = 0;
        let mut size = 0;
        for tag in tags {
            let known = known::of(tag.id).is_some() && tag.is_request();
            self.count_if(known && length >= 5, RUN_KNOWN);
            let alike = !known && tag.size == size;
            length = if alike { length + 1 } else { u32::from(!known && tag.size > 0) };
            size = tag.size;
        }
        let run = length >= 5 && size > 0;
        self.count_if(run && outcome == 0, RUN_END);
        self.count_if(run && outcome != 0, RUN_FAULT);
    }
}
