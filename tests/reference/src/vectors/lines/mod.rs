//! Line ends between segments (document 02, Item 3), by both choices.

mod places;
mod refusals;
mod rewriting;
mod separators;
mod worked;

use crate::vectors::case::{Case, How, Told};
use crate::vectors::text::reading;

/// A line end, and how many of its bytes are skipped where neither CR nor LF is a separator.
const ENDS: [(&str, usize); 7] =
    [("\r\n", 2), ("\n", 1), ("\r", 1), ("\n\r", 1), ("\r\r\n", 1), ("\n\n", 1), ("\r\n\r\n", 2)];

/// A reading by both choices, and the answers: line ends skipped, strictly.
fn by_both(case: Case, answers: [[u64; 4]; 2]) -> [Told; 2] {
    let [skipping, strictly] = answers.map(|answer| Told { case: case.clone(), answer: Some(answer) });
    [skipping.by(How::DEFAULT), strictly.by(How::STRICT)]
}

/// The same of a text with the standard separators and room enough.
pub fn told(text: &str, answers: [[u64; 4]; 2]) -> [Told; 2] {
    by_both(reading(text.as_bytes()), answers)
}

pub fn cases() -> Vec<Told> {
    [places::cases(), worked::cases(), refusals::cases(), separators::cases(), rewriting::cases()].concat()
}
