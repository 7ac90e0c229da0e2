//! The known tags: id, request length, answer length; and ids that are unknown, but only just.

use crate::random::Random;

#[derive(Clone, Copy)]
pub struct Known {
    pub id: u32,
    pub request: u32,
    pub answer: u32,
}

/// Its answer's length is that of the board's command line.
pub const COMMAND_LINE: u32 = 0x0005_0001;
pub const SET_CLOCK_RATE: u32 = 0x0003_8002;
pub const ALLOCATE: u32 = 0x0004_0001;
pub const RELEASE: u32 = 0x0004_8001;
pub const ALLOCATE_MEMORY: u32 = 0x0003_000C;
pub const LOCK_MEMORY: u32 = 0x0003_000D;
pub const UNLOCK_MEMORY: u32 = 0x0003_000E;
pub const RELEASE_MEMORY: u32 = 0x0003_000F;

const fn tag(id: u32, request: u32, answer: u32) -> Known {
    Known { id, request, answer }
}

pub const OUTSIDE_GROUP: [Known; 24] = [
    tag(0x0000_0001, 0, 4),
    tag(0x0001_0001, 0, 4),
    tag(0x0001_0002, 0, 4),
    tag(0x0001_0003, 0, 6),
    tag(0x0001_0004, 0, 8),
    tag(0x0001_0005, 0, 8),
    tag(0x0001_0006, 0, 8),
    tag(COMMAND_LINE, 0, 0),
    tag(0x0006_0001, 0, 4),
    tag(0x0002_0001, 4, 8),
    tag(0x0002_0002, 4, 8),
    tag(0x0002_8001, 8, 8),
    tag(0x0003_0001, 4, 8),
    tag(0x0003_8001, 8, 8),
    tag(0x0003_0002, 4, 8),
    tag(0x0003_0004, 4, 8),
    tag(0x0003_0007, 4, 8),
    tag(SET_CLOCK_RATE, 8, 8),
    tag(0x0003_0003, 4, 8),
    tag(0x0003_8003, 8, 8),
    tag(0x0003_0005, 4, 8),
    tag(0x0003_0008, 4, 8),
    tag(0x0003_0006, 4, 8),
    tag(0x0003_000A, 4, 8),
];

pub const MEMORY: [Known; 4] = [
    tag(ALLOCATE_MEMORY, 12, 4),
    tag(LOCK_MEMORY, 4, 4),
    tag(UNLOCK_MEMORY, 4, 4),
    tag(RELEASE_MEMORY, 4, 4),
];

pub const GETS: [Known; 7] = [
    tag(0x0004_0003, 0, 8),
    tag(0x0004_0004, 0, 8),
    tag(0x0004_0005, 0, 4),
    tag(0x0004_0006, 0, 4),
    tag(0x0004_0007, 0, 4),
    tag(0x0004_0008, 0, 4),
    tag(0x0004_0009, 0, 8),
];

pub const TESTS: [Known; 6] = [
    tag(0x0004_4003, 8, 8),
    tag(0x0004_4004, 8, 8),
    tag(0x0004_4005, 4, 4),
    tag(0x0004_4006, 4, 4),
    tag(0x0004_4007, 4, 4),
    tag(0x0004_4009, 8, 8),
];

pub const SETS: [Known; 6] = [
    tag(0x0004_8003, 8, 8),
    tag(0x0004_8004, 8, 8),
    tag(0x0004_8005, 4, 4),
    tag(0x0004_8006, 4, 4),
    tag(0x0004_8007, 4, 4),
    tag(0x0004_8009, 8, 8),
];

pub const BUFFER_TAGS: [Known; 2] = [tag(ALLOCATE, 4, 8), tag(RELEASE, 0, 0)];

/// Ids that the real interface or a regular reading of it has, and this one leaves unknown.
const LEFT_OUT: [u32; 30] = [
    0x0000_8010,
    0x0000_8011,
    0x0001_0007,
    0x0002_8002,
    0x0003_0009,
    0x0003_000B,
    0x0003_0010,
    0x0003_0014,
    0x0003_0020,
    0x0003_8009,
    0x0003_800C,
    0x0003_800D,
    0x0003_800F,
    0x0004_0002,
    0x0004_000A,
    0x0004_000B,
    0x0004_4001,
    0x0004_4002,
    0x0004_4008,
    0x0004_400A,
    0x0004_400B,
    0x0004_8002,
    0x0004_8008,
    0x0004_800A,
    0x0004_800B,
    0x0004_C001,
    0x0004_C003,
    0x0005_8001,
    0x0006_8001,
    0x0007_0001,
];

/// From here on no id is known.
pub const BEYOND: u32 = 0x0007_0000;

pub fn all() -> impl Iterator<Item = &'static Known> {
    let group = GETS.iter().chain(&TESTS).chain(&SETS).chain(&BUFFER_TAGS);
    OUTSIDE_GROUP.iter().chain(&MEMORY).chain(group)
}

pub fn of(id: u32) -> Option<&'static Known> {
    all().find(|known| known.id == id)
}

/// Any known tag, each as often as another.
pub fn any(random: &mut Random) -> Known {
    let at = random.below(all().count() as u32) as usize;
    all().nth(at).copied().unwrap_or(OUTSIDE_GROUP[0])
}

/// An id that is no end word and mostly unknown: beside a known one, left out, at the edge of a
/// range, behind all, or any.
pub fn stranger(random: &mut Random) -> u32 {
    let id = match random.below(8) {
        0..=2 => any(random).id ^ 1 << random.below(32),
        3..=4 => random.pick(&LEFT_OUT),
        5 => (random.between(1, 8) << 16) - random.below(2),
        6 => random.between(BEYOND, u32::MAX),
        _ => random.number(),
    };
    id.max(1)
}
