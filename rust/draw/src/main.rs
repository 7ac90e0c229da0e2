//! Draws a message file twice, a line for each word: as it was sent, and as the emulated board leaves
//! it. It changes no file.
//!
//! `draw FILE`

mod file;
mod names;
mod outcomes;
mod picture;
mod roles;
mod title;
mod values;
mod words;

use file::{Sent, MOST};
use std::ffi::{OsStr, OsString};
use std::io::{self, IsTerminal, Write};
use std::process::ExitCode;

/// Serves a copy on the bench record: outcome, place, and the bytes afterwards.
fn served(sent: &Sent) -> (u32, usize, Vec<u8>) {
    let mut reply = sent.bytes.clone();
    if sent.more {
        return (outcomes::BAD_SIZE, 0, reply);
    }
    let (outcome, place) = vcmailbox::serve(&mut vcmailbox::bench(), &mut reply);
    (outcome, place, reply)
}

/// The place of a fault, where the file has a word there.
fn fault_in(outcome: u32, place: usize, bytes: &[u8]) -> Option<usize> {
    (outcomes::is_fault(outcome) && place + 4 <= bytes.len()).then_some(place)
}

/// What stands above the first drawing, and above the second.
fn heads(outcome: u32, fault: Option<usize>) -> [&'static str; 2] {
    if outcomes::is_refusal(outcome) {
        ["The message", "The message afterwards (refused, nothing changed)"]
    } else if fault.is_some() {
        ["The request", "The reply (* changed, ! fault)"]
    } else {
        ["The request", "The reply (* changed)"]
    }
}

fn draw(out: &mut impl Write, path: &OsStr, sent: &Sent, colour: bool) -> io::Result<()> {
    let (outcome, place, reply) = served(sent);
    let fault = fault_in(outcome, place, &reply);
    let [first, second] = heads(outcome, fault);
    let part = if sent.more { format!(" (its first {MOST} bytes)") } else { String::new() };
    writeln!(out, "{}", title::title(path, sent))?;
    writeln!(out, "\n{first}{part}\n")?;
    picture::draw(out, &sent.bytes, &sent.bytes, None, colour)?;
    writeln!(out, "\n{second}\n")?;
    picture::draw(out, &reply, &sent.bytes, fault, colour)?;
    writeln!(out, "\n{}", outcomes::line(outcome, place, sent))
}

fn main() -> ExitCode {
    let arguments: Vec<OsString> = std::env::args_os().skip(1).collect();
    let [path] = arguments.as_slice() else {
        eprintln!("name a message file: draw FILE");
        return ExitCode::from(2);
    };
    let sent = match file::read(path) {
        Ok(sent) => sent,
        Err(error) => {
            eprintln!("{}: {error}", title::printable(path));
            return ExitCode::FAILURE;
        }
    };
    let colour = io::stdout().is_terminal() && std::env::var_os("NO_COLOR").is_none();
    let mut out = io::BufWriter::new(io::stdout().lock());
    match draw(&mut out, path, &sent, colour).and_then(|()| out.flush()) {
        Ok(()) => ExitCode::SUCCESS,
        // The reader has seen enough, as `head` has.
        Err(error) if error.kind() == io::ErrorKind::BrokenPipe => ExitCode::SUCCESS,
        Err(error) => {
            eprintln!("standard output: {error}");
            ExitCode::FAILURE
        }
    }
}
