//! The board record, laid out as in C.

#[repr(C)]
#[derive(Clone, Copy, PartialEq, Eq, Debug)]
pub struct Span {
    pub base: u32,
    pub size: u32,
}

impl Span {
    pub const NONE: Span = Span { base: 0, size: 0 };

    /// The first address behind it.
    pub fn end(&self) -> u64 {
        u64::from(self.base) + u64::from(self.size)
    }

    /// Whether a byte lies in both; an empty span has none to share.
    pub fn meets(&self, other: &Span) -> bool {
        u64::from(self.base.max(other.base)) < self.end().min(other.end())
    }

    pub fn holds(&self, part: &Span) -> bool {
        self.base <= part.base && part.end() <= self.end()
    }
}

/// What never changes; `characters` is the length of the command line.
#[repr(C)]
#[derive(Clone, Copy, PartialEq, Eq, Debug)]
pub struct Facts {
    pub firmware: u32,
    pub model: u32,
    pub revision: u32,
    pub mac: [u8; 6],
    pub serial: u64,
    pub arm: Span,
    pub vc: Span,
    pub dma: u32,
    pub characters: u32,
}

#[repr(C)]
#[derive(Clone, Copy, PartialEq, Eq, Debug)]
pub struct State {
    pub exists: bool,
    pub on: bool,
}

/// A power device and the time it takes to come up.
#[repr(C)]
#[derive(Clone, Copy, PartialEq, Eq, Debug)]
pub struct Device {
    pub state: State,
    pub timing: u32,
}

/// A clock, in Hz.
#[repr(C)]
#[derive(Clone, Copy, PartialEq, Eq, Debug)]
pub struct Clock {
    pub state: State,
    pub rate: u32,
    pub min: u32,
    pub max: u32,
}

/// A voltage, in millivolts.
#[repr(C)]
#[derive(Clone, Copy, PartialEq, Eq, Debug)]
pub struct Voltage {
    pub valid: bool,
    pub value: u32,
    pub min: u32,
    pub max: u32,
}

/// In thousandths of a degree.
#[repr(C)]
#[derive(Clone, Copy, PartialEq, Eq, Debug)]
pub struct Temperature {
    pub current: u32,
    pub max: u32,
}

#[repr(C)]
#[derive(Clone, Copy, PartialEq, Eq, Debug)]
pub struct Size {
    pub width: u32,
    pub height: u32,
}

#[repr(C)]
#[derive(Clone, Copy, PartialEq, Eq, Debug)]
pub struct Offset {
    pub x: u32,
    pub y: u32,
}

/// The frame buffer's settings; `logical` is the virtual size.
#[repr(C)]
#[derive(Clone, Copy, PartialEq, Eq, Debug)]
pub struct Settings {
    pub physical: Size,
    pub logical: Size,
    pub offset: Offset,
    pub depth: u32,
    pub order: u32,
    pub alpha: u32,
}

/// The region for frame buffers, the settings, and the buffer that stands: none where its size is 0.
#[repr(C)]
#[derive(Clone, Copy, PartialEq, Eq, Debug)]
pub struct Display {
    pub region: Span,
    pub settings: Settings,
    pub buffer: Span,
}

/// A place for a block of the heap; all but `taken` means nothing while it is free.
#[repr(C)]
#[derive(Clone, Copy, PartialEq, Eq, Debug)]
pub struct Block {
    pub taken: bool,
    pub locked: bool,
    pub base: u32,
    pub size: u32,
    pub alignment: u32,
    pub flags: u32,
}

impl Block {
    pub const FREE: Block =
        Block { taken: false, locked: false, base: 0, size: 0, alignment: 0, flags: 0 };

    pub fn span(&self) -> Span {
        Span { base: self.base, size: self.size }
    }
}

/// Devices have the ids 0 to 10, clocks 1 to 14, voltages 1 to 4, blocks the handles 1 to 32.
#[repr(C)]
#[derive(Clone, Copy, PartialEq, Eq, Debug)]
pub struct Board {
    pub facts: Facts,
    pub line: [u8; 256],
    pub devices: [Device; 11],
    pub clocks: [Clock; 14],
    pub voltages: [Voltage; 4],
    pub temperature: Temperature,
    pub display: Display,
    pub heap: Span,
    pub blocks: [Block; 32],
}
