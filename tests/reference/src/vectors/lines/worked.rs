//! The worked reports W1 to W12 with CR LF behind each segment.

use super::by_both;
use crate::vectors::case::{Case, Told};
use crate::vectors::worked::reports;

/// Every start moves by the line ends before it. Strictly, the second segment is refused, or the first
/// for what it is.
fn in_lines(told: Told) -> [Told; 2] {
    let Told { case: Case::Read { input, separators, rooms, .. }, answer: Some(answer) } = told else {
        panic!("the worked reports are readings, and their answers are told");
    };
    let text = String::from_utf8(input).expect("the worked reports are text").replace('~', "~\r\n");
    let (skipping, strictly) = match answer {
        [0, segments, levels, bytes] => ([0, segments, levels, bytes + 2 * (segments - 1)], [5, 2, 12, 0]),
        [number, segment, byte, element] => (
            [number, segment, byte + 2 * (segment - 1), element],
            if segment == 1 { answer } else { [5, 2, 12, 0] },
        ),
    };
    by_both(Case::read(text.into_bytes(), separators, rooms), [skipping, strictly])
}

pub fn cases() -> Vec<Told> {
    reports().into_iter().flat_map(in_lines).collect()
}
