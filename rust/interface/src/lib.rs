//! The mailbox property interface, written a second time from its rules: what a board answers, and how
//! a client builds and reads messages. Every function here has the shape of the library's of that name.

pub mod builder;
pub mod frame_buffer;
pub mod memory;
pub mod outcome;
pub mod reader;
pub mod record;
pub mod respond;
pub mod tags;
pub mod validity;
pub mod walk;

pub use builder::{add, finish, start};
pub use reader::{list, read, read_or, Listed, Reading};
pub use record::*;
pub use respond::respond;
pub use validity::is_valid;
