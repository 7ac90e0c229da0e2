//! A message file as it was sent.

use std::ffi::OsStr;
use std::fs::File;
use std::io::{self, Read};

/// No message is longer.
pub const MOST: usize = 65_536;

/// A file's bytes up to the most of a message, and whether it has more.
pub struct Sent {
    pub bytes: Vec<u8>,
    pub more: bool,
}

pub fn read(path: &OsStr) -> io::Result<Sent> {
    let mut bytes = Vec::new();
    File::open(path)?.take(MOST as u64 + 1).read_to_end(&mut bytes)?;
    let more = bytes.len() > MOST;
    bytes.truncate(MOST);
    Ok(Sent { bytes, more })
}
