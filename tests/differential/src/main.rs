//! Drives the proved library, through its C interface, and the independent reader with the same inputs, some with many levels,
//! line ends skipped and strictly, as reports and as replies, and compares the answers, the whole tables and outputs, the spans
//! of lookups, the numbers of number checks and the order of walked levels, and guard words around what was lent. Ends with
//! status 1 if anything differs.

mod lent;
mod levels;
mod lookups;
mod numbers;
mod outcome;
mod parts;
mod rewriting;
mod sides;
mod tally;
mod walks;

use std::process::ExitCode;
use tally::Tally;

/// How many seeds are taken unless `--count` says.
const COUNT: u64 = 100_000;

/// The number behind a word of the command line.
fn number(words: &[String], word: &str, otherwise: u64) -> Result<u64, String> {
    let Some(at) = words.iter().position(|given| given == word) else {
        return Ok(otherwise);
    };
    let given = words.get(at + 1).ok_or(format!("{word} wants a number"))?;
    given.parse().map_err(|_| format!("{word} wants a number, not {given}"))
}

fn run(words: &[String]) -> Result<bool, String> {
    let count = number(words, "--count", COUNT)?;
    let from = number(words, "--from", 0)?;
    println!(
        "seeds {from} to {}, count {count}, W1 and a reply with every table size and separator, {} reports with up to {} levels, \
         every short number, and every small level table and {} with up to {} levels",
        from + count - 1,
        levels::REPORTS,
        levels::MOST,
        walks::LARGE_TABLES,
        walks::MOST
    );
    let mut tally = Tally::default();
    parts::rooms(&mut tally);
    levels::many(&mut tally);
    parts::sets(&mut tally);
    numbers::fixed(&mut tally);
    walks::fixed(&mut tally);
    for seed in from..from + count {
        parts::generated(&mut tally, seed);
    }
    tally.print();
    Ok(tally.differences() == 0)
}

fn main() -> ExitCode {
    let words: Vec<String> = std::env::args().skip(1).collect();
    match run(&words) {
        Ok(true) => ExitCode::SUCCESS,
        Ok(false) => ExitCode::FAILURE,
        Err(message) => {
            eprintln!("{message}");
            ExitCode::from(2)
        }
    }
}
