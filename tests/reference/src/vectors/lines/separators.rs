//! CR or LF, or both, among the separators: such a byte is never skipped.

use super::by_both;
use crate::vectors::case::{Case, Told};
use crate::vectors::text::written_with;
use crate::{Separators, SEGMENT_NUMBERS};

const CR: u8 = b'\r';
const LF: u8 = b'\n';

/// What stands behind ST: all three separators, too.
const BEHIND_ST: &str = "BNR*A:B~HL*1**RP~SE*4*0001~";
/// How many bytes the report has without line ends.
const BYTES: u64 = 39;
/// How many numbers the tables have: more than the report needs.
const ROOMS: (usize, usize) = (SEGMENT_NUMBERS * 5 + 2, 9);

pub fn cases() -> Vec<Told> {
    [cr(), lf(), both(), as_lines()].concat()
}

/// The report in this set with a line end behind ST, by both choices.
fn read(set: [u8; 3], end: &str, answers: [[u64; 4]; 2]) -> [Told; 2] {
    let separators = Separators::new(set[0], set[1], set[2]);
    let [st, behind] = ["ST*842*0001~", BEHIND_ST].map(|text| written_with(text, separators));
    let input = [&st[..], end.as_bytes(), &behind].concat();
    by_both(Case::read(input, separators, ROOMS), answers)
}

/// Accepted with so many bytes skipped.
const fn accepted(skipped: u64) -> [u64; 4] {
    [0, 4, 1, BYTES + skipped]
}

/// The tag is bad, unknown or empty: the second segment starts with what is no line end.
const BAD: [u64; 4] = [5, 2, 12, 0];
const UNKNOWN: [u64; 4] = [4, 2, 12, 0];

/// CR is a separator and LF is none: a CR stays, and an LF alone is skipped.
fn cr() -> Vec<Told> {
    let mut cases = Vec::new();
    for set in [[CR, b':', b'~'], [b'*', CR, b'~'], [b'*', b':', CR]] {
        cases.extend(read(set, "\n", [accepted(1), BAD]));
        cases.extend(read(set, "\r", [UNKNOWN; 2]));
        cases.extend(read(set, "\n\r", [[4, 2, 13, 0], BAD]));
        cases.extend(read(set, "\n\n", [[5, 2, 13, 0], BAD]));
    }
    cases.extend(read([CR, b':', b'~'], "\r\n", [[5, 2, 12, 1]; 2]));
    cases.extend(read([b'*', CR, b'~'], "\r\n", [BAD; 2]));
    cases.extend(read([b'*', b':', CR], "\r\n", [UNKNOWN; 2]));
    cases
}

/// LF is a separator and CR is none: a CR is skipped, and the LF behind it stays.
fn lf() -> Vec<Told> {
    let mut cases = Vec::new();
    for set in [[LF, b':', b'~'], [b'*', LF, b'~'], [b'*', b':', LF]] {
        cases.extend(read(set, "\r", [accepted(1), BAD]));
        cases.extend(read(set, "\n", [UNKNOWN; 2]));
        cases.extend(read(set, "\r\n", [[4, 2, 13, 0], BAD]));
        cases.extend(read(set, "\r\r", [[5, 2, 13, 0], BAD]));
    }
    cases.extend(read([LF, b':', b'~'], "\n\r", [[5, 2, 12, 1]; 2]));
    cases.extend(read([b'*', LF, b'~'], "\n\r", [BAD; 2]));
    cases.extend(read([b'*', b':', LF], "\n\r", [UNKNOWN; 2]));
    cases
}

/// Both are separators: nothing is skipped.
fn both() -> Vec<Told> {
    let sets =
        [[CR, LF, b'~'], [LF, CR, b'~'], [CR, b':', LF], [LF, b':', CR], [b'*', CR, LF], [b'*', LF, CR]];
    let mut cases = Vec::new();
    for set in sets {
        for end in ["\r", "\n", "\r\n"] {
            cases.extend(read(set, end, [UNKNOWN; 2]));
        }
    }
    cases
}

/// Whole reports in lines: terminator CR with an LF behind each; terminator LF with a CR before each, which
/// is no data, and with one behind each.
fn as_lines() -> Vec<Told> {
    let whole = |terminator: u8, text: &str, answers: [[u64; 4]; 2]| {
        let separators = Separators::new(b'*', b':', terminator);
        by_both(Case::read(text.as_bytes().to_vec(), separators, ROOMS), answers)
    };
    let text = |end: &str| format!("ST*842*0001~{BEHIND_ST}").replace('~', end);
    [
        whole(CR, &text("\r\n"), [accepted(3), BAD]),
        whole(CR, &text("\r\n\n"), [[5, 2, 13, 0], BAD]),
        whole(CR, &text("\r\r\n"), [UNKNOWN; 2]),
        whole(LF, &text("\r\n"), [[5, 1, 0, 2]; 2]),
        whole(LF, &text("\n\r"), [accepted(3), BAD]),
        whole(LF, &text("\n\r\n"), [[4, 2, 13, 0], BAD]),
    ]
    .concat()
}
