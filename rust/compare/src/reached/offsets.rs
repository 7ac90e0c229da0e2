//! The virtual offset on each axis, as sets, tests and records have it.

use super::{Reached, Thing};
use interface::frame_buffer::{supported, Operation, Verdict};
use interface::{is_valid, Board, Display, Settings};

/// The sides and the offset on one axis.
#[derive(Clone, Copy, PartialEq)]
struct Axis {
    offset: u64,
    physical: u64,
    logical: u64,
}

type Kind = (&'static str, fn(Axis) -> bool);

const SUPPORTED: [Kind; 3] = [
    ("inside the picture", |axis| axis.offset > 0 && axis.shown() < axis.logical),
    ("at the picture's end", |axis| axis.offset > 0 && axis.shown() == axis.logical),
    ("0, physical larger", |axis| axis.offset == 0 && axis.is_larger()),
];

const NOT_SUPPORTED: [Kind; 6] = [
    ("one past the end", |axis| !axis.is_larger() && axis.shown() == axis.logical + 1),
    ("the last below virtual", |axis| !axis.is_larger() && axis.offset + 1 == axis.logical),
    ("equal to virtual", |axis| !axis.is_larger() && axis.offset == axis.logical),
    ("inside in 32 bits", |axis| {
        !axis.is_larger() && axis.shown() >> 32 == 1 && axis.shown() as u32 as u64 <= axis.logical
    }),
    ("1, physical larger", |axis| axis.is_larger() && axis.offset == 1),
    ("above 1, physical larger", |axis| axis.is_larger() && axis.offset > 1),
];

/// Where one size was changed, and the offset stands as it was.
const VIRTUAL_SMALLER: &str = "standing, virtual smaller";
const PHYSICAL_LARGER: &str = "standing, physical larger";

const AXES: [&str; 2] = ["x", "y"];
const ASKED: [&str; 3] = ["set", "test", "record"];

impl Axis {
    fn of(settings: &Settings) -> [Axis; 2] {
        let Settings { physical, logical, offset, .. } = *settings;
        let axis = |offset: u32, physical: u32, logical: u32| Axis {
            offset: offset.into(),
            physical: physical.into(),
            logical: logical.into(),
        };
        [
            axis(offset.x, physical.width, logical.width),
            axis(offset.y, physical.height, logical.height),
        ]
    }

    fn is_larger(self) -> bool {
        self.physical > self.logical
    }

    /// Where the shown part ends.
    fn shown(self) -> u64 {
        self.offset + self.physical
    }
}

/// The settings with an offset of 0 on one axis, which is always supported.
fn mended(settings: &Settings, axis: usize) -> Settings {
    let mut mended = *settings;
    match axis {
        0 => mended.offset.x = 0,
        _ => mended.offset.y = 0,
    }
    mended
}

pub fn all() -> impl Iterator<Item = Thing> {
    let kinds = || SUPPORTED.iter().chain(&NOT_SUPPORTED).map(|(kind, _)| *kind);
    AXES.into_iter().flat_map(move |axis| {
        let each = ASKED.into_iter().flat_map(move |asked| kinds().map(move |kind| (kind, asked)));
        let standing = ["set", "test"]
            .into_iter()
            .flat_map(|asked| [VIRTUAL_SMALLER, PHYSICAL_LARGER].map(|kind| (kind, asked)));
        each.chain(standing).map(move |(kind, asked)| Thing::Offset(axis, kind, asked))
    })
}

impl Reached {
    /// Counts the offset of a proposal that the message changed.
    pub fn count_proposed_offset(&mut self, operation: &Operation, display: &Display) {
        let (asked, is_taken) = match operation.verdict(display) {
            Verdict::Mixed => return,
            Verdict::Tests { supported } => ("test", supported),
            Verdict::Accepted(_) => ("set", true),
            Verdict::Refused(_) => ("set", false),
        };
        let proposal = &operation.proposal;
        let before = Axis::of(&display.settings);
        for (at, axis) in Axis::of(proposal).into_iter().enumerate() {
            let is_alone = !supported(proposal, &display.region)
                && supported(&mended(proposal, at), &display.region);
            if axis == before[at] || !(is_taken || is_alone) {
                continue;
            }
            self.count_offset(at, axis, asked, is_taken);
            if is_alone && axis.offset == before[at].offset {
                self.count_standing(at, before[at], axis, asked);
            }
        }
    }

    fn count_standing(&mut self, at: usize, before: Axis, axis: Axis, asked: &'static str) {
        if axis.physical == before.physical && axis.logical < before.logical {
            self.add(Thing::Offset(AXES[at], VIRTUAL_SMALLER, asked));
        }
        if axis.logical == before.logical && axis.physical > before.physical {
            self.add(Thing::Offset(AXES[at], PHYSICAL_LARGER, asked));
        }
    }

    /// Counts the offset of a record that is valid, or is not because of it alone.
    pub fn count_stored_offset(&mut self, board: &Board, outcome: u64) {
        for (at, axis) in Axis::of(&board.display.settings).into_iter().enumerate() {
            let mut other = *board;
            other.display.settings = mended(&board.display.settings, at);
            if outcome != 14 || is_valid(&other) {
                self.count_offset(at, axis, "record", outcome != 14);
            }
        }
    }

    fn count_offset(&mut self, at: usize, axis: Axis, asked: &'static str, is_taken: bool) {
        let kinds = if is_taken { &SUPPORTED[..] } else { &NOT_SUPPORTED };
        for (kind, holds) in kinds {
            if holds(axis) {
                self.add(Thing::Offset(AXES[at], kind, asked));
            }
        }
    }
}
