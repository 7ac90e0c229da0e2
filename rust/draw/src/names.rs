//! What numbers are called: tags and codes.

/// A tag's name, or `unknown`.
pub fn tag(id: u32) -> &'static str {
    match id {
        0x0000_0001 => "get firmware revision",
        0x0001_0001 => "get board model",
        0x0001_0002 => "get board revision",
        0x0001_0003 => "get MAC address",
        0x0001_0004 => "get board serial",
        0x0001_0005 => "get ARM memory",
        0x0001_0006 => "get VC memory",
        0x0005_0001 => "get command line",
        0x0006_0001 => "get DMA channels",
        0x0002_0001 => "get power state",
        0x0002_0002 => "get power timing",
        0x0002_8001 => "set power state",
        0x0003_0001 => "get clock state",
        0x0003_8001 => "set clock state",
        0x0003_0002 => "get clock rate",
        0x0003_0004 => "get maximum clock rate",
        0x0003_0007 => "get minimum clock rate",
        0x0003_8002 => "set clock rate",
        0x0003_0003 => "get voltage",
        0x0003_8003 => "set voltage",
        0x0003_0005 => "get maximum voltage",
        0x0003_0008 => "get minimum voltage",
        0x0003_0006 => "get temperature",
        0x0003_000a => "get maximum temperature",
        0x0003_000c => "allocate memory",
        0x0003_000d => "lock memory",
        0x0003_000e => "unlock memory",
        0x0003_000f => "release memory",
        0x0004_0001 => "allocate frame buffer",
        0x0004_8001 => "release frame buffer",
        0x0004_0008 => "get pitch",
        _ => frame(id).unwrap_or("unknown"),
    }
}

/// The settings of the frame buffer, each with a tag to get, to test and to set it.
fn frame(id: u32) -> Option<&'static str> {
    let names = match id & !0xc000 {
        0x0004_0003 => ["get physical size", "test physical size", "set physical size"],
        0x0004_0004 => ["get virtual size", "test virtual size", "set virtual size"],
        0x0004_0005 => ["get depth", "test depth", "set depth"],
        0x0004_0006 => ["get pixel order", "test pixel order", "set pixel order"],
        0x0004_0007 => ["get alpha mode", "test alpha mode", "set alpha mode"],
        0x0004_0009 => ["get virtual offset", "test virtual offset", "set virtual offset"],
        _ => return None,
    };
    names.get((id & 0xc000) as usize >> 14).copied()
}

pub fn code(word: u32) -> &'static str {
    match word {
        0 => "request",
        0x8000_0000 => "reply, no fault",
        0x8000_0001 => "reply, cut short by a fault",
        _ => "neither a request nor a reply",
    }
}

pub fn is_reply(code: u32) -> bool {
    matches!(code, 0x8000_0000 | 0x8000_0001)
}

/// Whether a tag word is that of an answer.
pub fn is_answer(word: u32) -> bool {
    word >> 31 == 1
}
