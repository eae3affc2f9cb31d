//! What the program prints for a report as its outline (document 02, Item 2): a line for each level, under
//! that of its parent. It reads as for the listing.

use crate::levels::{LEVEL_NUMBERS, SEGMENT_NUMBERS};
use crate::listing::{read_by_program, Reading};
use crate::{lookup_span, walk, Separators, WalkAnswer, CODES};

/// What stands before a line for each level above.
const INDENT: &str = "  ";

/// What each code stands for, in the order of the codes.
const WORDS: [&str; CODES.len()] =
    ["report", "item", "component", "product characteristic", "serial number", "response"];

/// The outline of an accepted report, or the one line of a refusal. Every line ends with LF.
pub fn outline(report: &[u8]) -> String {
    read_by_program(report).map_or_else(|refusal| refusal, |reading| lines(report, &reading))
}

/// A line for each level; every accepted report has one at least.
fn lines(report: &[u8], reading: &Reading) -> String {
    let count = reading.levels.len() / LEVEL_NUMBERS;
    let mut order = vec![0; count];
    let answer = walk(&reading.levels, count as u64, &mut order);
    assert_eq!(answer, WalkAnswer::Walked { levels: count }, "the levels of a report can be walked");
    order.into_iter().map(|level| line(report, reading, level)).collect()
}

/// Two blanks for each level above, what the level is, in words and letters, its HL01, the segment of its HL,
/// where that starts, and how many segments belong to the level.
fn line(report: &[u8], Reading { segments, levels, .. }: &Reading, level: u64) -> String {
    let record = &levels[LEVEL_NUMBERS * (level as usize - 1)..];
    let (segment, depth, code) = (record[0] as usize, record[2] as usize, record[3] as usize);
    let hl = &segments[SEGMENT_NUMBERS * (segment - 1)..];
    let indent = INDENT.repeat(depth - 1);
    let (word, letters) = (WORDS[code - 1], CODES[code - 1]);
    let name = name(&report[hl[0] as usize..(hl[0] + hl[1]) as usize]);
    let belonging = segments.chunks(SEGMENT_NUMBERS).filter(|record| record[3] == level).count();
    format!("{indent}{word} {letters} {name} segment {segment} byte {} segments {belonging}\n", hl[0])
}

/// The text of HL01, which is ASCII in every accepted report.
fn name(hl: &[u8]) -> String {
    let Separators { element, component, .. } = Separators::STANDARD;
    let (start, length) = lookup_span(hl, element, component, 1, 0);
    hl[start..start + length].iter().copied().map(char::from).collect()
}

#[cfg(test)]
mod tests {
    use super::*;

    /// The program reads no replies, which alone have the last code.
    #[test]
    fn every_code_has_its_word() {
        let hl = b"HL*A**RP";
        let line = |code| {
            let reading = Reading { segments: vec![0, 8, 18, 1], levels: vec![1, 0, 1, code], bytes: 9 };
            lines(hl, &reading)
        };
        assert_eq!(line(1), "report RP A segment 1 byte 0 segments 1\n");
        assert_eq!(line(2), "item I A segment 1 byte 0 segments 1\n");
        assert_eq!(line(3), "component F A segment 1 byte 0 segments 1\n");
        assert_eq!(line(4), "product characteristic PC A segment 1 byte 0 segments 1\n");
        assert_eq!(line(5), "serial number SN A segment 1 byte 0 segments 1\n");
        assert_eq!(line(6), "response RB A segment 1 byte 0 segments 1\n");
    }
}
