//! Sets of separators: every byte in each of the three places, sets that do not differ, and reports
//! read with another set than they were written with.

use super::case::{Case, Told};
use super::text::{joined, written_with};
use crate::{Separators, SEGMENT_NUMBERS};

/// How many numbers the tables have: four segments, one level, and a number over in each.
const ROOMS: (usize, usize) = (SEGMENT_NUMBERS * 4 + 1, 5);

fn report() -> String {
    joined(&["ST*842*0001", "BNR*A:B", "HL*1**RP", "SE*4*0001"])
}

/// The report written and read with the set; accepted if the set is fit.
fn own(set: Separators, fit: bool) -> Told {
    let input = written_with(&report(), set);
    let answer = if fit { [0, 4, 1, input.len() as u64] } else { [1, 0, 0, 0] };
    Told { case: Case::read(input, set, ROOMS), answer: Some(answer) }
}

/// Fit as one of three, by the paper's list of what is not.
fn fit(byte: u8) -> bool {
    let shut_out = byte.is_ascii_alphanumeric() || b" .-".contains(&byte);
    (1..=126).contains(&byte) && !shut_out
}

fn every_byte() -> Vec<Told> {
    let mut cases = Vec::new();
    for byte in 0..=255 {
        cases.push(own(Separators::new(byte, b':', b'~'), fit(byte) && byte != b':' && byte != b'~'));
        cases.push(own(Separators::new(b'*', byte, b'~'), fit(byte) && byte != b'*' && byte != b'~'));
        cases.push(own(Separators::new(b'*', b':', byte), fit(byte) && byte != b'*' && byte != b':'));
    }
    cases
}

fn sets() -> Vec<Told> {
    let fit = [
        [b'*', b'~', b':'],
        [b':', b'*', b'~'],
        [b'~', b':', b'*'],
        [1, 2, 3],
        [31, 30, 29],
        [b'\t', b'\r', b'\n'],
        [b'|', b'^', b'\''],
        [b'!', 126, 33 + 1],
        [b'/', b',', b'_'],
        [28, b'>', 29],
    ];
    let unfit = [
        [b'*', b'*', b'*'],
        [b'*', b'*', b'~'],
        [b'*', b':', b'*'],
        [b'*', b':', b':'],
        [0, 0, 0],
        [127, 128, 255],
        [b'A', b'z', b'5'],
        [b' ', b'.', b'-'],
    ];
    let mut cases = Vec::new();
    cases.extend(fit.map(|set| own(Separators::new(set[0], set[1], set[2]), true)));
    cases.extend(unfit.map(|set| own(Separators::new(set[0], set[1], set[2]), false)));
    cases
}

/// The standard report read with another set.
fn foreign() -> Vec<Told> {
    let read = |set: [u8; 3], answer: [u64; 4]| {
        let separators = Separators::new(set[0], set[1], set[2]);
        let case = Case::read(report().into_bytes(), separators, ROOMS);
        Told { case, answer: Some(answer) }
    };
    vec![
        // No terminator of that kind.
        read([b'*', b':', 10], [3, 1, 0, 0]),
        // Terminator and element separator changed over: the first segment is its tag alone.
        read([b'~', b':', b'*'], [6, 1, 0, 0]),
        // No element separator of that kind: the tag is all of the segment.
        read([b'|', b':', b'~'], [4, 1, 0, 0]),
        // No component separator of that kind: the colon is data.
        read([b'*', b'|', b'~'], [0, 4, 1, report().len() as u64]),
        // The component separator cuts elements.
        read([b':', b'*', b'~'], [4, 1, 0, 0]),
    ]
}

/// A control byte is no data, even where another control byte is a separator.
fn controls() -> Vec<Told> {
    let set = Separators::new(1, 2, 3);
    let read = |text: &str, answer: [u64; 4]| {
        let input = written_with(text, set);
        Told { case: Case::read(input, set, ROOMS), answer: Some(answer) }
    };
    vec![
        read("ST*842*0\x0401~", [5, 1, 0, 2]),
        read("ST*842*0001~BNR*\x02:A\x05~", [5, 2, 12, 1]),
        read("S\x02T*842*0001~", [4, 1, 0, 0]),
        read("ST*842*000\x02~", [6, 1, 0, 2]),
    ]
}

pub fn cases() -> Vec<Told> {
    [every_byte(), sets(), foreign(), controls()].concat()
}
