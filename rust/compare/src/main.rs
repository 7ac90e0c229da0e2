//! Compares the C library with the rules written a second time, on random cases.

mod asking;
mod bench;
mod boards;
mod building;
mod case;
mod cases;
mod damage;
mod fields;
mod guarded;
mod known;
mod memory;
mod messages;
mod options;
mod panics;
mod random;
mod reached;
mod requests;
mod show;
mod shrink;
mod sides;
mod spoiled;
mod walk;

use interface::Board;
use options::Options;
use random::Random;
use reached::Reached;
use std::process::ExitCode;

const MOST_DISAGREEMENTS: usize = 5;

fn main() -> ExitCode {
    let options = match options::options(std::env::args().skip(1)) {
        Ok(options) => options,
        Err(wrong) => {
            eprintln!("compare: {wrong}\n{}", options::USAGE);
            return ExitCode::from(2);
        }
    };
    panics::watch(options.seed);
    let bench = vcmailbox::bench();
    if !bench::is_bench(&bench) {
        println!("the bench record is not the one that the rules name, or not valid: {bench:?}");
        return ExitCode::FAILURE;
    }
    let mut reached = Reached::new();
    if !compare(&options, &bench, &mut reached) {
        return ExitCode::FAILURE;
    }
    let count = options.cases.end - options.cases.start;
    if count >= options::CASES && !all_reached(&reached) {
        return ExitCode::FAILURE;
    }
    println!("{count} cases agree");
    ExitCode::SUCCESS
}

/// Runs the cases; prints each disagreement, up to the most. Whether there was none.
fn compare(options: &Options, bench: &Board, reached: &mut Reached) -> bool {
    let mut small_cases = Vec::new();
    for number in options.cases.clone() {
        panics::case_under_way(number);
        let case = cases::generate(&mut Random::of_case(options.seed, number), bench);
        if sides::run(&case, Some(reached)).is_none() {
            continue;
        }
        println!("disagreement, repeated by --seed {} --case {number}", options.seed);
        let small = shrink::shrink(case, bench);
        match sides::run(&small, None) {
            Some(_) if small_cases.contains(&small) => println!("  the same small case as above"),
            Some(disagreement) => show::print(&small, &disagreement, bench),
            None => println!("  the same calls a second time agree"),
        }
        small_cases.push(small);
        if small_cases.len() == MOST_DISAGREEMENTS {
            break;
        }
    }
    small_cases.is_empty()
}

fn all_reached(reached: &Reached) -> bool {
    reached.print();
    let missing = reached.missing();
    for thing in &missing {
        println!("never reached: {thing}");
    }
    missing.is_empty()
}
