//! The library and a hand-written reader on the same inputs, in turn: the best of several rounds of each. Before anything
//! is timed, all must give the same answers, tables and outputs.

#![deny(unsafe_code)]

mod contests;
mod inputs;
mod levels;
mod lines;
#[cfg(feature = "native")]
mod native;
mod race;
mod report;
mod sides;
mod walks;

use std::num::NonZeroUsize;
use std::process::ExitCode;

/// How often each side is measured, unless the first argument says.
const ROUNDS: usize = 300;

fn rounds() -> Result<usize, String> {
    let Some(word) = std::env::args().nth(1) else { return Ok(ROUNDS) };
    word.parse().map(NonZeroUsize::get).map_err(|_| format!("{word} is no number of rounds"))
}

fn main() -> ExitCode {
    match rounds() {
        Ok(rounds) => {
            let sides = sides::sides();
            contests::run(&sides, rounds);
            levels::run(&sides, rounds);
            walks::run(&sides, rounds);
            ExitCode::SUCCESS
        }
        Err(message) => {
            eprintln!("{message}");
            ExitCode::from(2)
        }
    }
}
