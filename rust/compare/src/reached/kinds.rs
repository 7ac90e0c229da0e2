//! Kinds of calls of the builder, the lister and the reader.

use super::{Reached, Thing};
use crate::case::Call;
use crate::sides::Side;

const LONGEST: &str = "finish gives 65,536";
const HIGH_INDEX: &str = "list gives a tag of an index from 70 on";
const HIGHER_INDEX: &str = "list gives a tag of an index from 5,000 on";
const WIDE_INDEX: &str = "list is asked for an index from 2^32 on";
const HIGH_OCCURRENCE: &str = "read gives an occurrence from 5 on";
const HIGHER_OCCURRENCE: &str = "read gives an occurrence from 100 on";
const WIDE_OCCURRENCE: &str = "read is asked for an occurrence from 2^32 on";
const WIDE_WANTED: &str = "read is asked for 2^32 bytes or more";
const EMPTY_PART: &str = "read_or shows no bytes of the message";
const EMPTY_DEFAULT: &str = "read_or shows a default of no bytes";

pub fn all() -> impl Iterator<Item = Thing> {
    let finish = [LONGEST];
    let list = [HIGH_INDEX, HIGHER_INDEX, WIDE_INDEX];
    let read = [HIGH_OCCURRENCE, HIGHER_OCCURRENCE, WIDE_OCCURRENCE, WIDE_WANTED];
    let read_or = [EMPTY_PART, EMPTY_DEFAULT];
    finish.into_iter().chain(list).chain(read).chain(read_or).map(Thing::Kind)
}

impl Reached {
    pub fn count_kinds(&mut self, call: &Call, after: &Side) {
        let [outcome, second, ..] = after.numbers;
        let done = outcome == 0;
        match *call {
            Call::Finish { .. } => self.count_if(done && second == 65_536, LONGEST),
            Call::List { index } => {
                self.count_if(done && index >= 70, HIGH_INDEX);
                self.count_if(done && index >= 5_000, HIGHER_INDEX);
                self.count_if(outcome == 11 && index >> 32 != 0, WIDE_INDEX);
            }
            Call::Read { occurrence, wanted, .. } => {
                self.count_if(done && occurrence >= 5, HIGH_OCCURRENCE);
                self.count_if(done && occurrence >= 100, HIGHER_OCCURRENCE);
                self.count_if(outcome == 11 && occurrence >> 32 != 0, WIDE_OCCURRENCE);
                self.count_if(outcome == 13 && wanted >> 32 != 0, WIDE_WANTED);
            }
            Call::ReadOr { wanted, default, .. } => {
                self.count_if(done && wanted == 0, EMPTY_PART);
                self.count_if(!done && default == 0, EMPTY_DEFAULT);
            }
            _ => {}
        }
    }
}
