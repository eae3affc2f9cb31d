//! Writes test vectors: `vectors DIR` the fixed ones, `vectors DIR FIRST COUNT` generated ones, for so many seeds
//! from the first on.

use reference::vectors::{generated, groups, write, Group};
use std::path::Path;
use std::process::ExitCode;

fn main() -> ExitCode {
    let arguments: Vec<String> = std::env::args().skip(1).collect();
    let Some((directory, groups)) = asked(&arguments) else {
        eprintln!("usage: vectors DIR [FIRST COUNT]");
        return ExitCode::from(2);
    };
    match write(Path::new(directory), &groups) {
        Ok(()) => ExitCode::SUCCESS,
        Err(error) => {
            eprintln!("{directory}: {error}");
            ExitCode::FAILURE
        }
    }
}

/// The folder and the groups that the arguments ask for.
fn asked(arguments: &[String]) -> Option<(&str, Vec<Group>)> {
    match arguments {
        [directory] => Some((directory, groups())),
        [directory, first, count] => {
            let (first, count): (u64, u64) = (first.parse().ok()?, count.parse().ok()?);
            println!("seeds from {first}, {count} in all");
            Some((directory, generated(first, count)))
        }
        _ => None,
    }
}
