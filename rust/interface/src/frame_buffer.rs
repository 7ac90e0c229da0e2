//! The frame buffer group: its tags, and the single operation that all of a message's form.

use crate::record::{Display, Offset, Settings, Size, Span};
use crate::tags::{store, store_pair, store_span};
use crate::walk::word;

const WIDEST: u32 = 4_096;
const PITCH_STEP: u32 = 32;

#[derive(Clone, Copy, PartialEq, Eq, Debug)]
pub enum Property {
    Physical,
    Logical,
    Depth,
    Order,
    Alpha,
    Offset,
}

#[derive(Clone, Copy, PartialEq, Eq, Debug)]
pub enum GroupTag {
    Get(Property),
    Test(Property),
    Set(Property),
    Pitch,
    Allocate,
    Release,
}

impl GroupTag {
    #[inline]
    pub fn of(id: u32) -> Option<GroupTag> {
        if id >> 16 != 0x0004 {
            return None;
        }
        match id & 0xFFFF {
            0x0001 => return Some(GroupTag::Allocate),
            0x0008 => return Some(GroupTag::Pitch),
            0x8001 => return Some(GroupTag::Release),
            _ => {}
        }
        let property = match id & 0x0FFF {
            0x003 => Property::Physical,
            0x004 => Property::Logical,
            0x005 => Property::Depth,
            0x006 => Property::Order,
            0x007 => Property::Alpha,
            0x009 => Property::Offset,
            _ => return None,
        };
        match id & 0xF000 {
            0x0000 => Some(GroupTag::Get(property)),
            0x4000 => Some(GroupTag::Test(property)),
            0x8000 => Some(GroupTag::Set(property)),
            _ => None,
        }
    }

    pub fn request_length(self) -> u32 {
        match self {
            GroupTag::Get(_) | GroupTag::Pitch | GroupTag::Release => 0,
            GroupTag::Allocate => 4,
            GroupTag::Test(property) | GroupTag::Set(property) => match property {
                Property::Physical | Property::Logical | Property::Offset => 8,
                Property::Depth | Property::Order | Property::Alpha => 4,
            },
        }
    }
}

/// Bytes from one row to the next.
pub fn pitch(settings: &Settings) -> u32 {
    (settings.logical.width * settings.depth / 8).next_multiple_of(PITCH_STEP)
}

/// Bytes that a buffer of these settings takes.
pub fn need(settings: &Settings) -> u32 {
    pitch(settings) * settings.logical.height
}

/// Along one axis, whether what is shown from the offset on ends within the virtual side. A longer
/// physical side cannot be moved at all.
fn in_view(physical: u32, logical: u32, offset: u32) -> bool {
    offset <= logical.saturating_sub(physical)
}

pub fn supported(settings: &Settings, region: &Span) -> bool {
    let Settings { physical, logical, offset, depth, order, alpha } = *settings;
    [physical.width, physical.height, logical.width, logical.height]
        .iter()
        .all(|side| (1..=WIDEST).contains(side))
        && matches!(depth, 8 | 16 | 24 | 32)
        && order <= 1
        && alpha <= 2
        && in_view(physical.width, logical.width, offset.x)
        && in_view(physical.height, logical.height, offset.y)
        && need(settings) <= region.size
}

/// What a message's group tags ask for together.
pub struct Operation {
    pub proposal: Settings,
    pub tests: bool,
    pub others: bool,
    pub release: bool,
    /// The last allocate tag's.
    pub alignment: Option<u32>,
}

#[derive(Clone, Copy, PartialEq, Eq, Debug)]
pub enum Verdict {
    /// Tests and others together: nothing is answered.
    Mixed,
    Tests {
        supported: bool,
    },
    /// With the buffer that stands afterwards.
    Accepted(Span),
    Refused(Refusal),
}

#[derive(Clone, Copy, PartialEq, Eq, Debug)]
pub enum Refusal {
    Unsupported,
    /// The alignment has not exactly one bit set.
    Alignment,
    /// No room in the region at this alignment.
    NoRoom,
    /// The buffer that stands is too small.
    BufferTooSmall,
}

/// What the tags of an operation answer.
pub struct Reply {
    settings: Settings,
    allocated: Span,
}

impl Operation {
    pub fn on(display: &Display) -> Operation {
        Operation {
            proposal: display.settings,
            tests: false,
            others: false,
            release: false,
            alignment: None,
        }
    }

    /// Takes up the next tag with its request.
    pub fn take(&mut self, tag: GroupTag, request: &[u8]) {
        match tag {
            GroupTag::Test(property) => {
                self.tests = true;
                propose(&mut self.proposal, property, request);
                return;
            }
            GroupTag::Set(property) => propose(&mut self.proposal, property, request),
            GroupTag::Allocate => self.alignment = Some(word(request, 0)),
            GroupTag::Release => self.release = true,
            GroupTag::Get(_) | GroupTag::Pitch => {}
        }
        self.others = true;
    }

    pub fn verdict(&self, display: &Display) -> Verdict {
        if self.tests && self.others {
            return Verdict::Mixed;
        }
        let supported = supported(&self.proposal, &display.region);
        if self.tests {
            return Verdict::Tests { supported };
        }
        if !supported {
            return Verdict::Refused(Refusal::Unsupported);
        }
        match self.placed(display) {
            Ok(buffer) => Verdict::Accepted(buffer),
            Err(refusal) => Verdict::Refused(refusal),
        }
    }

    /// The buffer that stands once supported settings are accepted.
    fn placed(&self, display: &Display) -> Result<Span, Refusal> {
        let size = need(&self.proposal);
        let Some(alignment) = self.alignment else {
            let standing = if self.release { Span::NONE } else { display.buffer };
            return if standing != Span::NONE && size > standing.size {
                Err(Refusal::BufferTooSmall)
            } else {
                Ok(standing)
            };
        };
        if !alignment.is_power_of_two() {
            return Err(Refusal::Alignment);
        }
        let base = u64::from(display.region.base).next_multiple_of(u64::from(alignment));
        if base + u64::from(size) > display.region.end() {
            return Err(Refusal::NoRoom);
        }
        Ok(Span { base: base as u32, size })
    }

    /// Changes the display where the operation is accepted; a mixed one gives no reply.
    pub fn carry_out(&self, display: &mut Display) -> Option<Reply> {
        match self.verdict(display) {
            Verdict::Mixed => None,
            Verdict::Tests { supported: true } => {
                Some(Reply { settings: self.proposal, allocated: Span::NONE })
            }
            Verdict::Accepted(buffer) => {
                display.settings = self.proposal;
                display.buffer = buffer;
                Some(Reply { settings: self.proposal, allocated: buffer })
            }
            Verdict::Tests { supported: false } | Verdict::Refused(_) => {
                Some(Reply { settings: display.settings, allocated: Span::NONE })
            }
        }
    }
}

fn propose(settings: &mut Settings, property: Property, request: &[u8]) {
    let first = word(request, 0);
    match property {
        Property::Physical => {
            settings.physical = Size { width: first, height: word(request, 4) };
        }
        Property::Logical => settings.logical = Size { width: first, height: word(request, 4) },
        Property::Offset => settings.offset = Offset { x: first, y: word(request, 4) },
        Property::Depth => settings.depth = first,
        Property::Order => settings.order = first,
        Property::Alpha => settings.alpha = first,
    }
}

impl Reply {
    /// Stores the tag's answer; gives its length.
    pub fn store(&self, tag: GroupTag, value: &mut [u8]) -> u32 {
        let Settings { physical, logical, offset, depth, order, alpha } = self.settings;
        let property = match tag {
            GroupTag::Get(property) | GroupTag::Test(property) | GroupTag::Set(property) => {
                property
            }
            GroupTag::Pitch => return store(value, &pitch(&self.settings).to_le_bytes()),
            GroupTag::Allocate => return store_span(value, self.allocated),
            GroupTag::Release => return 0,
        };
        match property {
            Property::Physical => store_pair(value, physical.width, physical.height),
            Property::Logical => store_pair(value, logical.width, logical.height),
            Property::Offset => store_pair(value, offset.x, offset.y),
            Property::Depth => store(value, &depth.to_le_bytes()),
            Property::Order => store(value, &order.to_le_bytes()),
            Property::Alpha => store(value, &alpha.to_le_bytes()),
        }
    }
}

#[cfg(test)]
mod tests {
    use super::in_view;

    #[test]
    fn any_numbers_on_one_axis() {
        let numbers = [0, 1, 2, 4_095, 4_096, 4_097, 1 << 31, u32::MAX - 4_095, u32::MAX];
        let pairs = numbers.map(|physical| numbers.map(|logical| (physical, logical))).concat();
        for (physical, logical) in pairs {
            for offset in numbers {
                let end = u64::from(offset) + u64::from(physical);
                let inside = physical <= logical && end <= u64::from(logical);
                let expected = inside || (physical > logical && offset == 0);
                assert_eq!(in_view(physical, logical, offset), expected);
            }
        }
    }
}
