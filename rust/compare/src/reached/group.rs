//! The cases of the frame buffer group.

use super::{Reached, Thing};
use crate::boards::{last_offset, need};
use crate::sides::Side;
use crate::walk::Tag;
use interface::frame_buffer::{GroupTag, Operation, Refusal, Verdict};
use interface::{Display, Settings, Span};

const GROUP: [&str; 23] = [
    "mixed",
    "tests, supported",
    "tests, not supported",
    "accepted, no buffer and no allocate",
    "accepted within the buffer that stands",
    "accepted, allocate",
    "accepted, allocate above the region's base",
    "accepted, allocate in a region up to the last address",
    "accepted, release",
    "accepted, release and allocate",
    "refused for the physical size",
    "refused for the virtual size",
    "refused for the depth",
    "refused for the pixel order",
    "refused for the alpha mode",
    "refused for the x offset",
    "refused for the y offset",
    "refused for a need above the region",
    "refused for the alignment",
    "refused for no room at the alignment",
    "refused for the buffer that stands",
    "refused with allocate",
    "refused with release",
];

pub fn cases() -> impl Iterator<Item = Thing> {
    GROUP.into_iter().map(Thing::Group)
}

/// Each power of two, and 0 and 24.
pub fn alignments() -> impl Iterator<Item = Thing> {
    (0..32).map(|bit| 1 << bit).chain([0, 24]).map(Thing::Alignment)
}

impl Reached {
    /// Counts the operation of a faultless message.
    pub fn count_group(&mut self, before: &Side, tags: &[Tag]) {
        let display = &before.board.display;
        let mut operation = Operation::on(display);
        for tag in tags.iter().filter(|tag| tag.is_request()) {
            if let Some(group) = GroupTag::of(tag.id) {
                operation.take(group, &before.bytes.lent()[tag.value()]);
            }
        }
        if operation.tests || operation.others {
            self.count_operation(&operation, display);
            self.count_proposed_offset(&operation, display);
        }
    }

    fn count_operation(&mut self, operation: &Operation, display: &Display) {
        let verdict = operation.verdict(display);
        self.add(Thing::Group(name(operation, &verdict, display)));
        let refused = matches!(verdict, Verdict::Refused(_));
        if refused && operation.release {
            self.add(Thing::Group("refused with release"));
        }
        let Some(alignment) = operation.alignment.filter(|_| verdict != Verdict::Mixed) else {
            return;
        };
        if alignment.is_power_of_two() || [0, 24].contains(&alignment) {
            self.add(Thing::Alignment(alignment));
        }
        if refused {
            self.add(Thing::Group("refused with allocate"));
        } else if display.region.end() == u64::from(u32::MAX) {
            self.add(Thing::Group("accepted, allocate in a region up to the last address"));
        }
    }
}

fn name(operation: &Operation, verdict: &Verdict, display: &Display) -> &'static str {
    match *verdict {
        Verdict::Mixed => "mixed",
        Verdict::Tests { supported: true } => "tests, supported",
        Verdict::Tests { supported: false } => "tests, not supported",
        Verdict::Accepted(buffer) => accepted_name(operation, buffer, display),
        Verdict::Refused(Refusal::Unsupported) => {
            unsupported_name(&operation.proposal, display).unwrap_or("refused for more than one")
        }
        Verdict::Refused(Refusal::Alignment) => "refused for the alignment",
        Verdict::Refused(Refusal::NoRoom) => "refused for no room at the alignment",
        Verdict::Refused(Refusal::BufferTooSmall) => "refused for the buffer that stands",
    }
}

fn accepted_name(operation: &Operation, buffer: Span, display: &Display) -> &'static str {
    match (operation.alignment.is_some(), operation.release) {
        (true, true) => "accepted, release and allocate",
        (true, false) if buffer.base > display.region.base => {
            "accepted, allocate above the region's base"
        }
        (true, false) => "accepted, allocate",
        (false, true) => "accepted, release",
        (false, false) if buffer.size > 0 => "accepted within the buffer that stands",
        (false, false) => "accepted, no buffer and no allocate",
    }
}

/// The rule that the settings break, where they break one alone.
fn unsupported_name(settings: &Settings, display: &Display) -> Option<&'static str> {
    let out = |side: u32| side == 0 || side > 4_096;
    let Settings { physical, logical, offset, depth, order, alpha } = *settings;
    let broken = [
        (out(physical.width) || out(physical.height), "refused for the physical size"),
        (out(logical.width) || out(logical.height), "refused for the virtual size"),
        (!matches!(depth, 8 | 16 | 24 | 32), "refused for the depth"),
        (order > 1, "refused for the pixel order"),
        (alpha > 2, "refused for the alpha mode"),
        (offset.x > last_offset(physical.width, logical.width), "refused for the x offset"),
        (offset.y > last_offset(physical.height, logical.height), "refused for the y offset"),
    ];
    let mut names = broken.iter().filter(|(broken, _)| *broken).map(|(_, name)| *name);
    match (names.next(), names.next()) {
        (None, _) => Some("refused for a need above the region"),
        (Some(_), Some(_)) => None,
        (Some(name), None) => {
            let sized = !broken[1].0 && !broken[2].0;
            (!sized || need(settings) <= display.region.size).then_some(name)
        }
    }
}
