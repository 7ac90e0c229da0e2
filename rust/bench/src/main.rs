//! Times the proved library beside the independent implementation in Rust and a copy of the message, in
//! one run: serving, building, reading.
//!
//! The three take turns, so that what else the machine does falls on all of them alike. Each one's best
//! turn is shown, and the average of all its turns.

mod clock;
mod memory;
mod messages;

use clock::{timed, Spent};
use interface::Board;
use messages::Request;
use std::hint::black_box;

const TURNS: usize = 2_000;

/// Nanoseconds for one run: the best turn by the wall's clock, the average of all by processor time.
#[derive(Clone, Copy)]
struct Times {
    best: f64,
    average: f64,
}

/// The times of each of three, over many turns.
fn times(runs: usize, mut turns: [&mut dyn FnMut() -> Spent; 3]) -> [Times; 3] {
    let mut times = [Times { best: f64::MAX, average: 0.0 }; 3];
    for _ in 0..TURNS {
        for (turn, times) in turns.iter_mut().zip(&mut times) {
            let spent = turn();
            times.best = times.best.min(spent.wall / runs as f64);
            times.average += spent.processor / (runs * TURNS) as f64;
        }
    }
    times
}

/// Serves every copy of the message in the buffer, each on the record that the one before it left.
fn turn(
    request: &Request,
    buffer: &mut [u8],
    serve: impl Fn(&mut Board, &mut [u8]) -> u32,
) -> Spent {
    let length = request.bytes.len();
    for copy in buffer.chunks_exact_mut(length) {
        copy.copy_from_slice(&request.bytes);
    }
    let mut board = request.board;
    timed(|| {
        for copy in buffer.chunks_exact_mut(length) {
            assert_eq!(serve(&mut board, copy), request.outcome);
        }
        black_box(&board);
    })
}

/// A row of the table; of a message without tags the whole time stands for that of a tag.
fn line(name: &str, tags: usize, [proved, rust, copy]: [Times; 3]) {
    let a_tag = |time: f64| time / tags.max(1) as f64;
    println!(
        "{name:<19} {tags:>4} {:>6.0} {:>6.0} {:>5.0} {:>6.2} {:>6.2} {:>5.2} {:>7.2} {:>6.2}",
        proved.best,
        rust.best,
        copy.best,
        a_tag(proved.best),
        a_tag(rust.best),
        proved.best / rust.best,
        a_tag(proved.average),
        a_tag(rust.average),
    );
}

fn serving(request: &Request) {
    let message = &request.bytes;
    let runs = (65_536 / message.len()).max(1);
    let mut buffers = [(); 3].map(|()| vec![0; runs * message.len()]);
    let [one, two, three] = &mut buffers;
    let times = times(
        runs,
        [
            &mut || turn(request, one, |board, copy| vcmailbox::serve(board, copy).0),
            &mut || turn(request, two, |board, copy| interface::respond(board, copy).0),
            &mut || {
                turn(request, three, |_, copy| {
                    copy.copy_from_slice(black_box(message));
                    request.outcome
                })
            },
        ],
    );
    line(request.name, request.tags, times);
}

const SET_RATES: u32 = 3_276;

/// Builds a request of set-rate tags, and gives its size.
macro_rules! build {
    ($client:ident, $buffer:expr) => {{
        let (_, mut cursor) = $client::start($buffer);
        for i in 0..SET_RATES {
            let mut rate = [0; 8];
            rate[0] = (i % 14 + 1) as u8;
            $client::add($buffer, &mut cursor, 0x0003_8002, 8, &rate);
        }
        $client::finish($buffer, cursor).1
    }};
}

fn building() {
    let mut buffers = [(); 3].map(|()| vec![0; 65_536]);
    let request = buffers[0].clone();
    let [one, two, three] = &mut buffers;
    let times = times(
        1,
        [
            &mut || timed(|| assert_eq!(build!(vcmailbox, one), 65_536)),
            &mut || timed(|| assert_eq!(build!(interface, two), 65_536)),
            &mut || timed(|| three.copy_from_slice(black_box(&request))),
        ],
    );
    line("building set rates", SET_RATES as usize, times);
}

/// Reads the last tag's answer: the walk of the whole message.
fn reading(request: &Request) {
    let (mut board, mut reply) = (request.board, request.bytes.clone());
    vcmailbox::serve(&mut board, &mut reply);
    let mut copy = reply.clone();
    let last = request.tags - 1;
    let times = times(
        1,
        [
            &mut || timed(|| assert_eq!(vcmailbox::read(&reply, 0x0003_8002, last, 8).outcome, 0)),
            &mut || timed(|| assert_eq!(interface::read(&reply, 0x0003_8002, last, 8).outcome, 0)),
            &mut || timed(|| copy.copy_from_slice(black_box(&reply))),
        ],
    );
    line("reading the last", request.tags, times);
}

fn main() {
    println!("{:<19} {:>4} {:^19} {:^19} {:>14}", "ns", "", "best turn", "a tag", "all turns");
    println!(
        "{:<19} {:>4} {:>6} {:>6} {:>5} {:>6} {:>6} {:>5} {:>7} {:>6}",
        "", "tags", "proved", "Rust", "copy", "proved", "Rust", "ratio", "proved", "Rust"
    );
    let requests = messages::all();
    requests.iter().for_each(serving);
    building();
    reading(&requests[1]);
}
