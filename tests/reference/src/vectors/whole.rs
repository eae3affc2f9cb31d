//! W1 cut at every byte, and W1 with every room.

use super::case::{Case, Told};
use super::text::{joined, W1};
use crate::{Separators, LEVEL_NUMBERS, SEGMENT_NUMBERS};

/// Where W1's segments start, and where the last ends.
const STARTS: [u64; 8] = [0, 12, 32, 43, 54, 60, 68, 78];

/// W1 cut at every byte: no terminator in the segment that is cut.
pub fn truncated() -> Vec<Told> {
    let whole = joined(&W1).into_bytes();
    (0..=whole.len())
        .map(|length| {
            let input = whole[..length].to_vec();
            let before = STARTS.iter().filter(|start| **start <= length as u64).count();
            let answer =
                if length == whole.len() { [0, 7, 2, 78] } else { [3, before as u64, STARTS[before - 1], 0] };
            let case = Case::read(input, Separators::STANDARD, (SEGMENT_NUMBERS * 7 + 1, 9));
            Told { case, answer: Some(answer) }
        })
        .collect()
}

/// W1 with every room, up to a segment more than it has: segments 3 and 4 need room for a level as well.
pub fn rooms() -> Vec<Told> {
    let mut cases = Vec::new();
    for segments in 0..=SEGMENT_NUMBERS * 8 {
        for levels in 0..=10 {
            let by_levels = match levels / LEVEL_NUMBERS {
                0 => 2,
                1 => 3,
                _ => 7,
            };
            let whole = (segments / SEGMENT_NUMBERS).min(by_levels);
            let answer = if whole == 7 { [0, 7, 2, 78] } else { [17, whole as u64 + 1, STARTS[whole], 0] };
            let input = joined(&W1).into_bytes();
            let case = Case::read(input, Separators::STANDARD, (segments, levels));
            cases.push(Told { case, answer: Some(answer) });
        }
    }
    cases
}
