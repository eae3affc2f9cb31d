//! Rewriting: unfit sets, the reading's refusals, 18, 19 and success.

use super::case::{Case, Told};
use super::text::{closed, enough, in_fault, in_heading, joined, start_of, w1_with, written_with, W1};
use super::{OUTPUT_BYTES, TABLE_NUMBERS};
use crate::{Profile, Separators, SEGMENT_NUMBERS};

const STANDARD: Separators = Separators::STANDARD;

/// The sets to rewrite W1 with: the same, permuted, control bytes, others.
const NEW: [Separators; 9] = [
    STANDARD,
    Separators::new(b':', b'*', b'~'),
    Separators::new(b'~', b'*', b':'),
    Separators::new(b':', b'~', b'*'),
    Separators::new(1, 2, 3),
    Separators::new(b'|', b'*', b'\n'),
    Separators::new(b'+', b':', b'\''),
    Separators::new(31, 30, 28),
    Separators::new(b'_', b'/', b','),
];

/// A rewriting with enough room in the tables, so many bytes more or less in the output than in the input.
pub fn rewriting(input: &[u8], separators: Separators, new: Separators, more: isize) -> Case {
    let rooms = enough(input, separators);
    let output = input.len().saturating_add_signed(more);
    Case::Rewrite { input: input.to_vec(), separators, profile: Profile::Report, new, rooms, output }
}

pub fn told(case: Case, answer: [u64; 4]) -> Told {
    Told { case, answer: Some(answer) }
}

pub fn cases() -> Vec<Told> {
    [unfit(), reading_refused(), collisions(), output_short(), rewritten(), trailing(), rooms()].concat()
}

/// 1, the old set first; the tables and the output keep what they held.
fn unfit() -> Vec<Told> {
    let w1 = joined(&W1).into_bytes();
    let mut cases = Vec::new();
    for set in [[b'*', b'*', b'~'], [0, 1, 2], [b'A', b':', b'~'], [b'*', b' ', b'~'], [b'*', b':', 127]] {
        let unfit = Separators::new(set[0], set[1], set[2]);
        cases.push(told(rewriting(&w1, unfit, STANDARD, 0), [1, 0, 0, 0]));
        cases.push(told(rewriting(&w1, unfit, unfit, 0), [1, 0, 0, 0]));
        cases.push(told(rewriting(&w1, STANDARD, unfit, 0), [1, 0, 0, 1]));
        cases.push(told(rewriting(b"", STANDARD, unfit, 0), [1, 0, 0, 1]));
    }
    cases
}

/// The reading's answer is returned as it is, whatever the output's length.
fn reading_refused() -> Vec<Told> {
    let new = Separators::new(b'|', b'^', b'\'');
    let mut cases = Vec::new();
    for (text, answer) in [
        (String::new(), [3, 1, 0, 0]),
        (w1_with(4, "HL*2*1*F*0"), [14, 4, 43, 2]),
        (w1_with(4, "HL*2*9*I*0"), [13, 4, 43, 2]),
        (w1_with(4, "HL*1*1*I*0"), [12, 4, 43, 1]),
        (w1_with(7, "SE*6*0001"), [16, 7, 68, 1]),
        (joined(&[&W1[..4], &W1[5..]].concat()), [7, 5, 54, 0]),
        (w1_with(6, "NCA**R1**5"), [11, 6, 60, 4]),
        (w1_with(2, "BN|*1"), [4, 2, 12, 0]),
        (w1_with(1, "ST*842*|^'"), [10, 1, 0, 2]),
    ] {
        cases.push(told(rewriting(text.as_bytes(), STANDARD, new, 0), answer));
        cases.push(told(rewriting(text.as_bytes(), STANDARD, new, -400), answer));
    }
    cases
}

/// 18: a data byte equals a new separator; the first segment and element. A tag has only letters
/// and digits, which no separator is.
fn collisions() -> Vec<Told> {
    let mut cases = Vec::new();
    let at = |text: &str, new: [u8; 3], segment: u64, element: u64, more: isize| {
        let byte = start_of(text.as_bytes(), b'~', segment);
        let new = Separators::new(new[0], new[1], new[2]);
        told(rewriting(text.as_bytes(), STANDARD, new, more), [18, segment, byte, element])
    };
    for element in 1..=5 {
        let mut pieces = ["REF", "A", "B", "C", "D", "E"].map(String::from);
        pieces[element] = "X|Y".to_string();
        let text = in_heading(&[&pieces.join("*")]);
        for new in [[b'|', b'^', b'\''], [b'^', b'|', b'\''], [b'^', b'\'', b'|']] {
            cases.push(at(&text, new, 3, element as u64, 0));
        }
    }
    let two = in_heading(&["REF*A*B^C*D|E", "REF*|"]);
    cases.push(at(&two, [b'|', 1, 2], 3, 3, 0));
    cases.push(at(&two, [b'|', b'^', 2], 3, 2, 0));
    let component = in_fault(&["NCA*1*R1*A/B", "NTE*GEN*A,B"]);
    cases.push(at(&component, [b',', b':', b'~'], 6, 2, 0));
    cases.push(at(&component, [b'/', b':', b','], 5, 3, 0));
    let plain = in_heading(&["REF*A:B:C|D"]);
    cases.push(at(&plain, [b'|', b':', b'~'], 3, 1, 0));
    let control = joined(&["ST*842*00|1", "BNR*1", "HL*1**I", "SE*4*00|1"]);
    cases.push(at(&control, [b'*', b'|', b'~'], 1, 2, 0));
    let name = closed(&["ST*842*0001", "BNR*1", "HL*'**I", "HL*2*'*F"]);
    cases.push(at(&name, [b'*', b':', b'\''], 3, 1, 0));
    // 18 comes before 19.
    cases.push(at(&name, [b'*', b':', b'\''], 3, 1, -10));
    cases.push(at(&name, [b'*', b':', b'\''], 3, 1, -400));
    cases
}

/// 19: the output is shorter than the bytes used.
fn output_short() -> Vec<Told> {
    let w1 = joined(&W1).into_bytes();
    let new = Separators::new(b'|', b'^', b'\'');
    let mut cases: Vec<Told> =
        [-1, -2, -40, -77, -78].map(|more| told(rewriting(&w1, STANDARD, new, more), [19, 0, 0, 0])).into();
    cases.push(told(rewriting(&w1, STANDARD, STANDARD, -1), [19, 0, 0, 0]));
    cases
}

/// Success: from every set to every set, with an output of the very length and a longer one.
fn rewritten() -> Vec<Told> {
    let mut cases = Vec::new();
    let text = in_fault(&["NTE*GEN*A B", "NCA*1*R1*TEXT*-5.5*EA:1:2", "REF*A::B**:C"]);
    for old in NEW {
        for new in NEW {
            let input = written_with(&text, old);
            let more = if old == new { 9 } else { 0 };
            let answer = [0, 8, 1, input.len() as u64];
            cases.push(told(rewriting(&input, old, new, more), answer));
        }
    }
    let w1 = joined(&W1).into_bytes();
    for new in NEW {
        cases.push(told(rewriting(&w1, STANDARD, new, 0), [0, 7, 2, 78]));
        cases.push(told(rewriting(&w1, STANDARD, new, 5), [0, 7, 2, 78]));
    }
    cases
}

/// What lies after SE is neither looked at nor written.
fn trailing() -> Vec<Told> {
    let new = Separators::new(b'|', b'^', b'\'');
    let mut cases = Vec::new();
    for tail in [&b"|^'"[..], b"\0\xFF", b"ST*842*0001~", b"~~~"] {
        let input = [joined(&W1).as_bytes(), tail].concat();
        let less = -(tail.len() as isize);
        cases.push(told(rewriting(&input, STANDARD, new, 0), [0, 7, 2, 78]));
        cases.push(told(rewriting(&input, STANDARD, new, less), [0, 7, 2, 78]));
        cases.push(told(rewriting(&input, STANDARD, new, less - 1), [19, 0, 0, 0]));
    }
    cases
}

/// The tables are left as reading alone leaves them, when room is short too.
fn rooms() -> Vec<Told> {
    let new = Separators::new(b'|', b'^', b'\'');
    let input = joined(&W1).into_bytes();
    let mut cases = Vec::new();
    for (rooms, output, answer) in [
        ((SEGMENT_NUMBERS * 7 - 1, 8), 78, [17, 7, 68, 0]),
        ((SEGMENT_NUMBERS * 7, 7), 78, [17, 4, 43, 0]),
        ((0, 0), 78, [17, 1, 0, 0]),
        ((SEGMENT_NUMBERS * 7, 8), 78, [0, 7, 2, 78]),
        ((SEGMENT_NUMBERS * 7, 8), 77, [19, 0, 0, 0]),
        ((TABLE_NUMBERS, TABLE_NUMBERS), OUTPUT_BYTES, [0, 7, 2, 78]),
    ] {
        let (input, profile) = (input.clone(), Profile::Report);
        cases.push(told(Case::Rewrite { input, separators: STANDARD, profile, new, rooms, output }, answer));
    }
    cases
}
