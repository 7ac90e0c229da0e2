//! The options of the command line.

use std::ops::Range;

/// How many cases there are where the command line does not say.
pub const CASES: u64 = 200_000;
const SEED: u64 = 1;

pub const USAGE: &str = "\
usage: ./vc compare [--cases N] [--seed S] [--case K]
  --cases N  how many cases are made: 1 or more, 200000 where not given
  --seed S   what all cases are made from, 1 where not given
  --case K   makes the case of this number alone, counted from 0";

pub struct Options {
    pub seed: u64,
    pub cases: Range<u64>,
}

/// The options, or what is wrong with them.
pub fn options(mut arguments: impl Iterator<Item = String>) -> Result<Options, String> {
    let mut options = Options { seed: SEED, cases: 0..CASES };
    while let Some(name) = arguments.next() {
        if !["--cases", "--seed", "--case"].contains(&name.as_str()) {
            return Err(format!("{name} is no option"));
        }
        let given = arguments.next().unwrap_or_default();
        let Ok(number) = given.parse::<u64>() else {
            return Err(format!("{name} takes a number, not \"{given}\""));
        };
        match name.as_str() {
            "--seed" => options.seed = number,
            "--case" => options.cases = number..number.saturating_add(1),
            _ => options.cases = 0..number,
        }
    }
    if options.cases.is_empty() {
        return Err("no case to compare: --cases takes 1 or more".to_string());
    }
    Ok(options)
}
