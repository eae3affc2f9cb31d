//! The reports that the program is run on: every kind of answer that it can give, its limits, BINs, odd
//! ones, and generated ones. What it must print for them is `listing`'s to say.

mod bins;
mod limits;
mod odd;

use crate::generator;
use crate::vectors::text::start_of;
use crate::vectors::{groups, Case, Group, How, Told};
use crate::Separators;

/// The groups of vectors that the program is given.
const TAKEN: [&str; 8] =
    ["answers", "astray", "attached", "levels", "lines", "quantities", "replies", "worked"];

/// How many generated reports there are.
const GENERATED: usize = 100;

/// One report.
#[derive(Clone, Debug)]
pub struct Report {
    /// A name that serves as a file's.
    pub name: String,
    /// The bytes.
    pub input: Vec<u8>,
    /// The answer's four numbers, where they are known without any reader.
    pub answer: Option<[u64; 4]>,
}

impl Report {
    fn told<T: Into<Vec<u8>>>(name: &str, input: T, answer: [u64; 4]) -> Report {
        Report { name: name.to_string(), input: input.into(), answer: Some(answer) }
    }

    /// Accepted with so many segments and levels, and all its bytes.
    fn accepted<T: Into<Vec<u8>>>(name: &str, input: T, segments: u64, levels: u64) -> Report {
        let input = input.into();
        let bytes = input.len() as u64;
        Report::told(name, input, [0, segments, levels, bytes])
    }

    /// Refused with this answer at this segment and element.
    fn refused(name: &str, text: String, number: u64, segment: u64, element: u64) -> Report {
        let byte = start_of(text.as_bytes(), b'~', segment);
        Report::told(name, text, [number, segment, byte, element])
    }
}

/// All reports.
pub fn reports() -> Vec<Report> {
    let of_vectors = groups().into_iter().flat_map(of_vectors);
    let made = limits::reports().into_iter().chain(bins::reports()).chain(odd::reports());
    of_vectors.chain(made).chain(generated()).collect()
}

/// The vectors that the program can be given: readings by the default with the standard separators. Those
/// that lack room, W10 among them, cannot be: the program's room is its own, and `limits` goes to its end.
fn of_vectors(group: Group) -> Vec<Report> {
    if !TAKEN.contains(&group.name.as_str()) {
        return Vec::new();
    }
    let report = |(number, told): (usize, _)| match told {
        Told {
            case: Case::Read { input, separators: Separators::STANDARD, how: How::DEFAULT, .. },
            answer: Some(answer),
        } if answer[0] != 17 => Some(Report::told(&format!("{}-{number:03}", group.name), input, answer)),
        _ => None,
    };
    (1..).zip(group.cases).filter_map(report).collect()
}

/// The first generated reports with the standard separators, valid and damaged.
fn generated() -> impl Iterator<Item = Report> {
    (0..)
        .map(generator::report)
        .filter(|case| case.separators == Separators::STANDARD)
        .take(GENERATED)
        .map(|case| Report { name: format!("seed-{:03}", case.seed), input: case.input, answer: None })
}
