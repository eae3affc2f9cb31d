//! Every line end at every place, behind each segment, and cut at every byte; bytes that say how.

use super::{by_both, told, ENDS};
use crate::vectors::case::{Case, How, Told};
use crate::vectors::text::{accepted, joined, reading, W1};
use crate::{Separators, SEGMENT_NUMBERS};

/// A report with a BIN that has a terminator and a line end in it.
const SEGMENTS: [&str; 7] = ["ST*842*0001", "BNR*1", "HL*1**I", "NCD*1", "EFI*1", "BIN*3*~\r\n", "SE*7*0001"];
/// Where its segments start, and where the last ends.
const STARTS: [u64; 8] = [0, 12, 18, 26, 32, 38, 48, 58];

pub fn cases() -> Vec<Told> {
    [one(), each(), different(), odd_bytes(), cut_everywhere(), how(), long()].concat()
}

/// One line end: before the first segment, behind each one, behind SE.
fn one() -> Vec<Told> {
    let mut cases = Vec::new();
    for (end, skipped) in ENDS {
        for (before, start) in STARTS.into_iter().enumerate() {
            let text = joined(&SEGMENTS[..before]) + end + &joined(&SEGMENTS[before..]);
            let (segment, behind) = (before as u64 + 1, start + skipped as u64);
            let strictly = [5, segment, start, 0];
            cases.extend(told(
                &text,
                match before {
                    0 => [strictly; 2],
                    7 => [[0, 7, 1, 58]; 2],
                    _ if skipped == end.len() => [[0, 7, 1, 58 + skipped as u64], strictly],
                    _ => [[5, segment, behind, 0], strictly],
                },
            ));
        }
    }
    cases
}

/// The same line end behind each segment.
fn each() -> Vec<Told> {
    let told = |(end, skipped): (&str, usize)| {
        let text: String = SEGMENTS.iter().map(|segment| format!("{segment}~{end}")).collect();
        let skipped = skipped as u64;
        let whole = skipped == end.len() as u64;
        let skipping = if whole { [0, 7, 1, 58 + 6 * skipped] } else { [5, 2, 12 + skipped, 0] };
        told(&text, [skipping, [5, 2, 12, 0]])
    };
    ENDS.into_iter().flat_map(told).collect()
}

/// Another line end behind each segment, and some without.
fn different() -> Vec<Told> {
    let lined = |ends: [&str; 7]| -> String {
        SEGMENTS.iter().zip(ends).map(|(segment, end)| format!("{segment}~{end}")).collect()
    };
    [
        told(&lined(["\r\n", "\n", "\r", "", "\r\n", "\n", "\r"]), [[0, 7, 1, 65], [5, 2, 12, 0]]),
        told(&lined(["", "\n", "", "\r", "", "\r\n", ""]), [[0, 7, 1, 62], [5, 3, 18, 0]]),
        told(&lined(["", "", "", "", "", "\r\n", "\r\n"]), [[0, 7, 1, 60], [5, 7, 48, 0]]),
        told(&lined(["\n", "\r\n", "\n\r", "", "", "", ""]), [[5, 4, 30, 0], [5, 2, 12, 0]]),
    ]
    .concat()
}

/// Bytes that are blank, and no line end.
fn odd_bytes() -> Vec<Told> {
    let behind_st = |end: &str| SEGMENTS[0].to_string() + "~" + end + &joined(&SEGMENTS[1..]);
    [
        told(&behind_st(" "), [[4, 2, 12, 0]; 2]),
        told(&behind_st("\t"), [[5, 2, 12, 0]; 2]),
        told(&behind_st("\x0B"), [[5, 2, 12, 0]; 2]),
        told(&behind_st("\x0C"), [[5, 2, 12, 0]; 2]),
        told(&behind_st("\0"), [[5, 2, 12, 0]; 2]),
        told(&behind_st("\x1A"), [[5, 2, 12, 0]; 2]),
        told(&behind_st("\r\n "), [[4, 2, 14, 0], [5, 2, 12, 0]]),
        told(&behind_st("\r \n"), [[5, 2, 13, 0], [5, 2, 12, 0]]),
        told(&behind_st("\r\n\t"), [[5, 2, 14, 0], [5, 2, 12, 0]]),
    ]
    .concat()
}

/// A report with CR LF between its segments, cut at every byte: where a line end is cut, the next segment
/// starts behind what is there of it.
fn cut_everywhere() -> Vec<Told> {
    let whole = "ST*842*0001~\r\nBNR*1~\r\nHL*1**I~\r\nSE*4*0001~";
    let line_ends = [12, 20, 30];
    let cut = |length: usize| {
        let before = line_ends.iter().take_while(|at| **at <= length);
        let start = before.clone().last().map_or(0, |at| length.min(at + 2));
        let answer = [3, before.count() as u64 + 1, start as u64, 0];
        Told { case: reading(&whole.as_bytes()[..length]), answer: Some(answer) }
    };
    (0..whole.len()).map(cut).chain([accepted(whole, 4, 1)]).collect()
}

/// Only the two lowest bits of the byte that says how are looked at: strictly, and by the profile of replies,
/// in which the mark of W1's first HL is one element too many.
fn how() -> Vec<Told> {
    let text = joined(&W1).replace('~', "~\r\n");
    let read = |how: u8| {
        let answer = match how % 4 {
            0 => [0, 7, 2, 90],
            2 => [9, 3, 36, 4],
            _ => [5, 2, 12, 0],
        };
        Told { case: reading(text.as_bytes()), answer: Some(answer) }.by(How(how))
    };
    [0, 1, 2, 3, 4, 5, 6, 7, 127, 128, 129, 130, 252, 253, 254, 255].map(read).into()
}

/// Inputs of the greatest length and one byte more, filled up with `~`.
fn long() -> Vec<Told> {
    let filled = |text: &str, length: usize| {
        Case::long(text.as_bytes().to_vec(), Separators::STANDARD, (SEGMENT_NUMBERS * 7 + 2, 9), length)
    };
    let in_lines = joined(&W1).replace('~', "~\n");
    let longest = 1_048_576;
    let mut cases = [
        by_both(filled(&in_lines, longest), [[0, 7, 2, 84], [5, 2, 12, 0]]),
        by_both(filled(&in_lines, longest + 1), [[2, 0, 0, 0]; 2]),
        by_both(filled("ST*842*0001~\r\n", longest), [[4, 2, 14, 0], [5, 2, 12, 0]]),
    ]
    .concat();
    for how in [2_u8, 252, 253, 254, 255] {
        let answer = match how % 4 {
            0 => [0, 7, 2, 84],
            2 => [9, 3, 34, 4],
            _ => [5, 2, 12, 0],
        };
        cases.push(Told { case: filled(&in_lines, longest), answer: Some(answer) }.by(How(how)));
    }
    cases
}
