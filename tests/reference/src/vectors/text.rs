//! Making reports out of segments.

use super::case::{Case, Told};
use super::TABLE_NUMBERS;
use crate::{Separators, LEVEL_NUMBERS, SEGMENT_NUMBERS};

/// W1 of document 01, segment by segment.
pub const W1: [&str; 7] =
    ["ST*842*0001", "BNR*11*NR7*20240301", "HL*1**RP*1", "HL*2*1*I*0", "NCD*1", "NCA**R1", "SE*7*0001"];

/// With ST, BNR and SE around them, one segment for each of the 79 rows.
pub const EVERY_ROW: [&str; 76] = [
    "REF*A", "DTM*002*20240301", "PID*A", "MEA*A", "DTM*002*20240301", "REF*A", "PWK*A", "REF*A",
    "DTM*002*20240301", "N1*SU*A", "N2*A", "N3*A", "N4*A", "REF*A", "PER*A", "HL*1**I", "LIN**BP*A", "PID*A",
    "PRS*A", "CID*A", "DTM*002*20240301", "REF*A", "CS*A", "QTY*A", "TMD*A", "PSD*A", "PWK*A", "LM*A",
    "LQ*A", "MEA*A", "DTM*002*20240301", "REF*A", "FA1*A", "FA2*A", "SPS*A", "REF*A", "PSD*A", "MEA*A",
    "DTM*002*20240301", "REF*A", "STA*A", "DTM*002*20240301", "REF*A", "NCD*1", "NTE*GEN*A",
    "DTM*002*20240301", "REF*A", "QTY*1", "AMT*1", "MEA*1", "RC*1", "EFI*1", "BIN*1*A", "N1*SU*A", "N2*A",
    "N3*A", "N4*A", "REF*A", "PER*A", "LM*A", "LQ*A", "NCA**R1", "NTE*GEN*B", "DTM*002*20240301", "REF*B",
    "PWK*A", "REF*A", "DTM*002**0000", "N1*SU*A", "N2*A", "N3*A", "N4*A", "REF*A", "PER*A", "LM*A", "LQ*A",
];

/// The segments with a terminator after each.
pub fn joined<T: AsRef<str>>(segments: &[T]) -> String {
    segments.iter().map(|segment| format!("{}~", segment.as_ref())).collect()
}

/// The segments with an SE behind them that gives the right count.
pub fn closed<T: AsRef<str>>(segments: &[T]) -> String {
    joined(segments) + &format!("SE*{}*0001~", segments.len() + 1)
}

/// ST, BNR, these segments, SE.
pub fn after_bnr(segments: &[&str]) -> String {
    closed(&[&["ST*842*0001", "BNR*1"], segments].concat())
}

/// A report with these segments in its heading, behind BNR.
pub fn in_heading(segments: &[&str]) -> String {
    after_bnr(&[segments, &["HL*1**I"]].concat())
}

/// A report with these segments behind its one HL.
pub fn in_level(segments: &[&str]) -> String {
    after_bnr(&[&["HL*1**I"], segments].concat())
}

/// A report with these segments behind its one NCD.
pub fn in_fault(segments: &[&str]) -> String {
    in_level(&[&["NCD*1"], segments].concat())
}

/// W1 with one segment put in another's place; segments are counted from 1.
pub fn w1_with(number: usize, segment: &str) -> String {
    let mut segments = W1;
    segments[number - 1] = segment;
    joined(&segments)
}

/// How many numbers the tables need for all segments and levels in sight, and a few more.
pub fn enough(input: &[u8], separators: Separators) -> (usize, usize) {
    let segments = input.iter().filter(|byte| **byte == separators.terminator).count();
    let levels = input
        .split(|byte| *byte == separators.terminator)
        .filter(|segment| segment.trim_ascii_start().starts_with(&[b'H', b'L', separators.element]))
        .count();
    let numbers = |count: usize, record: usize| (record * count + record - 1).min(TABLE_NUMBERS);
    (numbers(segments, SEGMENT_NUMBERS), numbers(levels, LEVEL_NUMBERS))
}

/// A reading with the standard separators and enough room.
pub fn reading(input: &[u8]) -> Case {
    let separators = Separators::STANDARD;
    Case::read(input.to_vec(), separators, enough(input, separators))
}

/// A reading that is accepted with so many segments and levels, and all its bytes.
pub fn accepted<T: AsRef<[u8]>>(input: T, segments: u64, levels: u64) -> Told {
    let input = input.as_ref();
    Told { case: reading(input), answer: Some([0, segments, levels, input.len() as u64]) }
}

/// A reading that is refused with this answer at this segment and element.
pub fn refused<T: AsRef<[u8]>>(input: T, number: u64, segment: u64, element: u64) -> Told {
    let input = input.as_ref();
    let byte = start_of(input, b'~', segment);
    Told { case: reading(input), answer: Some([number, segment, byte, element]) }
}

/// Where a segment starts.
pub fn start_of(input: &[u8], terminator: u8, segment: u64) -> u64 {
    let before = input.split(|byte| *byte == terminator).take(segment as usize - 1);
    before.map(|segment| segment.len() as u64 + 1).sum()
}

/// A standard text written with other separators.
pub fn written_with(text: &str, separators: Separators) -> Vec<u8> {
    text.bytes()
        .map(|byte| match byte {
            b'*' => separators.element,
            b':' => separators.component,
            b'~' => separators.terminator,
            other => other,
        })
        .collect()
}
