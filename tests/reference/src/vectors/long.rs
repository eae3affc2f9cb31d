//! Inputs around the greatest length: answer 2, and what comes before and after it.

use super::case::{Case, Told};
use super::text::{joined, W1};
use crate::{Separators, SEGMENT_NUMBERS};

/// The most bytes an input may have.
const LONGEST: usize = 1_048_576;

/// The report filled up with `~` to that length, and its answer.
fn filled(report: &str, separators: Separators, length: usize, answer: [u64; 4]) -> Told {
    let case = Case::long(report.into(), separators, (SEGMENT_NUMBERS * 7 + 2, 9), length);
    Told { case, answer: Some(answer) }
}

pub fn cases() -> Vec<Told> {
    let standard = Separators::STANDARD;
    let unfit = Separators::new(b'A', b':', b'~');
    let w1 = joined(&W1);
    vec![
        filled(&w1, standard, LONGEST, [0, 7, 2, 78]),
        filled(&w1, standard, LONGEST + 1, [2, 0, 0, 0]),
        filled("", standard, LONGEST, [4, 1, 0, 0]),
        filled("", standard, LONGEST + 1, [2, 0, 0, 0]),
        filled(&w1, unfit, LONGEST, [1, 0, 0, 0]),
        filled(&w1, unfit, LONGEST + 1, [1, 0, 0, 0]),
    ]
}
