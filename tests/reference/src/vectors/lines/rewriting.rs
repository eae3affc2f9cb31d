//! Rewritings: the report is read strictly, so that a line end between segments is refused.

use crate::vectors::case::{Case, Told};
use crate::vectors::text::{enough, joined, written_with, W1};
use crate::{Profile, Separators};

const STANDARD: Separators = Separators::STANDARD;
const NEW: Separators = Separators::new(b'|', b'^', b'\'');
const LINES: Separators = Separators::new(b'*', b':', b'\n');

/// A rewriting with an output as long as the input.
fn rewriting(input: &[u8], sets: [Separators; 2], answer: [u64; 4]) -> Told {
    let (input, rooms, output) = (input.to_vec(), enough(input, sets[0]), input.len());
    let profile = Profile::Report;
    let case = Case::Rewrite { input, separators: sets[0], profile, new: sets[1], rooms, output };
    Told { case, answer: Some(answer) }
}

pub fn cases() -> Vec<Told> {
    [refused(), accepted()].concat()
}

fn refused() -> Vec<Told> {
    let in_lines = |end: &str| joined(&W1).replace('~', end);
    let sets = [STANDARD, NEW];
    let mut cases: Vec<Told> = ["~\r\n", "~\n", "~\r", "~\n\r"]
        .iter()
        .map(|end| rewriting(in_lines(end).as_bytes(), sets, [5, 2, 12, 0]))
        .collect();
    let w1 = joined(&W1);
    let before_se = w1.replace("SE*", "\r\nSE*");
    cases.extend([
        rewriting(in_lines("~\r\n").as_bytes(), [STANDARD, STANDARD], [5, 2, 12, 0]),
        rewriting(in_lines("~\r\n").as_bytes(), [STANDARD, LINES], [5, 2, 12, 0]),
        rewriting(before_se.as_bytes(), sets, [5, 7, 68, 0]),
        rewriting(b"ST*842*0001~\r\n", sets, [3, 2, 12, 0]),
        rewriting(b"\nST*842*0001~", sets, [5, 1, 0, 0]),
        rewriting(in_lines("\r\n").as_bytes(), [Separators::new(b'*', b':', b'\r'), NEW], [5, 2, 12, 0]),
        rewriting(in_lines("\r\n").as_bytes(), [LINES, NEW], [5, 1, 0, 2]),
    ]);
    cases
}

/// Behind SE and within BIN02 a line end is none; as a separator it is rewritten.
fn accepted() -> Vec<Told> {
    let w1 = joined(&W1);
    let bin = b"ST*842*0001~BNR*1~HL*1**I~NCD*1~EFI*1~BIN*3*~\r\n~SE*7*0001~";
    vec![
        rewriting((w1.clone() + "\r\n").as_bytes(), [STANDARD, NEW], [0, 7, 2, 78]),
        rewriting((w1.clone() + "\n").as_bytes(), [STANDARD, LINES], [0, 7, 2, 78]),
        rewriting(w1.as_bytes(), [STANDARD, LINES], [0, 7, 2, 78]),
        rewriting(&written_with(&w1, LINES), [LINES, STANDARD], [0, 7, 2, 78]),
        rewriting(bin, [STANDARD, NEW], [0, 7, 1, 58]),
        rewriting(bin, [STANDARD, LINES], [0, 7, 1, 58]),
    ]
}
