//! Refusals at and behind a line end: the byte is the one behind what was skipped.

use super::{by_both, told};
use crate::vectors::case::{Case, Told};
use crate::vectors::text::{joined, W1};
use crate::{Separators, SEGMENT_NUMBERS};

/// The strict answer where a terminator comes, and where none does.
const LINE_END: [u64; 4] = [5, 2, 12, 0];
const NOT_ENDED: [u64; 4] = [3, 2, 12, 0];

pub fn cases() -> Vec<Told> {
    [first(), second(), later(), bins(), rooms(), unfit()].concat()
}

/// Before the first segment and within it nothing is skipped.
fn first() -> Vec<Told> {
    [
        told("\r\n", [[3, 1, 0, 0]; 2]),
        told("\n", [[3, 1, 0, 0]; 2]),
        told("\r\n~", [[5, 1, 0, 0]; 2]),
        told("\r\nST*842*0001~\r\n", [[5, 1, 0, 0]; 2]),
        told("ST*842*0001\r\n~", [[5, 1, 0, 2]; 2]),
        told("ST\r\n*842*0001~", [[5, 1, 0, 0]; 2]),
        told("ST*842*0001~~\r\n", [[4, 2, 12, 0]; 2]),
    ]
    .concat()
}

/// The second segment, behind ST.
fn second() -> Vec<Told> {
    let behind = |rest: &str, answers: [[u64; 4]; 2]| told(&format!("ST*842*0001~{rest}"), answers);
    [
        behind("\r", [[3, 2, 13, 0], NOT_ENDED]),
        behind("\n", [[3, 2, 13, 0], NOT_ENDED]),
        behind("\r\n", [[3, 2, 14, 0], NOT_ENDED]),
        behind("\n\r", [[3, 2, 13, 0], NOT_ENDED]),
        behind("\r\r\n", [[3, 2, 13, 0], NOT_ENDED]),
        behind("\r\n\r\nBNR*1", [[3, 2, 14, 0], NOT_ENDED]),
        behind("\r\n\0", [[3, 2, 14, 0], NOT_ENDED]),
        behind("\r\n~", [[4, 2, 14, 0], LINE_END]),
        behind("\r\n*1~", [[4, 2, 14, 0], LINE_END]),
        behind("\r\nXX*1~", [[4, 2, 14, 0], LINE_END]),
        behind("\nbnr*1~", [[4, 2, 13, 0], LINE_END]),
        behind("\rBNR *1~", [[4, 2, 13, 0], LINE_END]),
        behind("\n\rBNR*1~", [[5, 2, 13, 0], LINE_END]),
        behind("\r\r\nBNR*1~", [[5, 2, 13, 0], LINE_END]),
        behind("\r\nBNR\n*1~", [[5, 2, 14, 0], LINE_END]),
        behind("\r\nBNR*1\r\n~", [[5, 2, 14, 1], LINE_END]),
        behind("\r\nBNR*A*B\n~", [[5, 2, 14, 2], LINE_END]),
        behind("\r\nBNR~", [[6, 2, 14, 0], LINE_END]),
        behind("\r\nBNR*~", [[6, 2, 14, 1], LINE_END]),
        behind("\nBNR*1:~", [[6, 2, 13, 1], LINE_END]),
        behind("\r\nST*842*0001~", [[7, 2, 14, 0], LINE_END]),
        behind("\nSE*2*0001~", [[7, 2, 13, 0], LINE_END]),
        behind("\rHL*1**I~", [[7, 2, 13, 0], LINE_END]),
    ]
    .concat()
}

/// Segments behind several line ends.
fn later() -> Vec<Told> {
    let behind =
        |rest: &str, answer: [u64; 4]| told(&format!("ST*842*0001~\r\nBNR*1~\r\n{rest}"), [answer, LINE_END]);
    [
        behind("N1**A~", [8, 3, 22, 1]),
        behind("DTM*002*20240301*1530*ES*RD8*PERIOD*Z~", [9, 3, 22, 7]),
        behind("DTM*002*20230229~", [10, 3, 22, 2]),
        behind("N1*SU*A\r\n~", [5, 3, 22, 2]),
        behind("N1*SU~", [11, 3, 22, 2]),
        behind("HL*1**RP~\nHL*1*1*I~", [12, 4, 32, 1]),
        behind("HL*1**RP~\rHL*2*9*I~", [13, 4, 32, 2]),
        behind("HL*1**F~", [14, 3, 22, 3]),
        behind("HL*1**RP*0~\r\nHL*2*1*I~", [15, 4, 35, 2]),
        behind("HL*1**RP*1~\r\nSE*4*0001~", [15, 4, 35, 0]),
        behind("HL*1**I~\r\nSE*5*0001~\r\n", [16, 4, 32, 1]),
        behind("HL*1**I~\r\nSE*4*0002~\r\n", [16, 4, 32, 2]),
    ]
    .concat()
}

/// A BIN is looked for behind the line end. What a BIN counts is no line end; what stands where its
/// terminator is due is none either.
fn bins() -> Vec<Told> {
    let behind = |rest: &str, answers: [[u64; 4]; 2]| {
        told(&format!("ST*842*0001~BNR*1~HL*1**I~NCD*1~EFI*1~{rest}"), answers)
    };
    let line_end = [5, 6, 38, 0];
    let not_ended = [3, 6, 38, 0];
    [
        behind("\r\nBIN*1*~~\r\nSE*7*0001~", [[0, 7, 1, 60], line_end]),
        behind("\nBIN*2*\r\n~\nSE*7*0001~", [[0, 7, 1, 59], line_end]),
        behind("BIN*2*\r\n~SE*7*0001~", [[0, 7, 1, 57]; 2]),
        behind("BIN*2*~\r~\r\nSE*7*0001~", [[0, 7, 1, 59], [5, 7, 47, 0]]),
        behind("BIN*1*~~\r\r\nSE*7*0001~", [[5, 7, 47, 0], [5, 7, 46, 0]]),
        behind("\r\nBIN*A", [[10, 6, 40, 1], not_ended]),
        behind("\r\nBIN*\r\n", [[10, 6, 40, 1], not_ended]),
        behind("\nBIN*1\n*A~", [[10, 6, 39, 1], line_end]),
        behind("\r\nBIN*1*A\r\n~", [[10, 6, 40, 2], line_end]),
        behind("\rBIN*1*~\n", [[10, 6, 39, 2], line_end]),
        behind("\r\nBIN*3*\r\n", [[3, 6, 40, 0], not_ended]),
        behind("\r\nBIN*3*~\r\n", [[3, 6, 40, 0], line_end]),
        behind("\r\nBIN*3", [[3, 6, 40, 0], not_ended]),
        behind("\r\nBIN~", [[6, 6, 40, 0], line_end]),
        behind("\n\rBIN*1*~~", [[5, 6, 39, 0], line_end]),
        behind("\r\nNCD*1~", [[7, 6, 40, 0], line_end]),
        told("ST*842*0001~\r\nBIN*1*~~", [[7, 2, 14, 0], LINE_END]),
    ]
    .concat()
}

/// 17 at each segment of W1 in turn, and at each of its levels.
fn rooms() -> Vec<Told> {
    let input = joined(&W1).replace('~', "~\r\n").into_bytes();
    let with_room = |rooms: (usize, usize), segment: u64, start: u64| {
        let strictly = if segment == 1 { [17, 1, 0, 0] } else { LINE_END };
        let case = Case::read(input.clone(), Separators::STANDARD, rooms);
        by_both(case, [[17, segment, start, 0], strictly])
    };
    let starts = [0, 14, 36, 49, 62, 70, 80];
    let segments = starts.into_iter().enumerate();
    let mut cases: Vec<Told> = segments
        .flat_map(|(whole, start)| with_room((SEGMENT_NUMBERS * (whole + 1) - 1, 9), whole as u64 + 1, start))
        .collect();
    cases.extend(with_room((SEGMENT_NUMBERS * 7 + 2, 3), 3, 36));
    cases.extend(with_room((SEGMENT_NUMBERS * 7 + 2, 7), 4, 49));
    // No room is asked for a segment that is refused for what it is.
    let case = Case::read(b"ST*842*0001~\r\nXX*1~".to_vec(), Separators::STANDARD, (SEGMENT_NUMBERS, 0));
    cases.extend(by_both(case, [[4, 2, 14, 0], LINE_END]));
    cases
}

/// 1 comes before everything.
fn unfit() -> Vec<Told> {
    let case = Case::read(b"\r\nST*842*0001~".to_vec(), Separators::new(b'\n', b'\n', b'~'), (5, 5));
    by_both(case, [[1, 0, 0, 0]; 2]).into()
}
