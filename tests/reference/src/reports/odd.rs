//! Reports with every row, with line ends, and with refusals whose numbers have many digits.

use super::Report;
use crate::vectors::text::{after_bnr, closed, in_heading, joined, EVERY_ROW, W1};

pub fn reports() -> Vec<Report> {
    let mut reports = vec![Report::accepted("every-row", after_bnr(&EVERY_ROW), 79, 1)];
    reports.extend(line_ends());
    reports.extend([1, 9, 10, 99, 100, 101, 1_000, 10_000, 60_000].into_iter().flat_map(at_element));
    reports.extend([100, 1_000, 10_000, 65_530].map(at_byte));
    reports.extend([9, 10, 99, 100, 101, 999, 1_000].map(at_segment));
    reports
}

/// Between two segments at most one CR and then at most one LF are skipped. Left over, before ST and within
/// a segment they are no data; behind the SE they are not looked at.
fn line_ends() -> Vec<Report> {
    let ended = |end: &str| -> String { W1.iter().map(|segment| format!("{segment}~{end}")).collect() };
    let mixed: String = W1
        .iter()
        .zip(["\r\n", "\n", "\r", "", "\r\n", "\n", "\r\n"])
        .map(|(segment, end)| format!("{segment}~{end}"))
        .collect();
    let before_bin = "ST*842*0001~\r\nBNR*1~\r\nHL*1**I~\r\nNCD*1~\r\nEFI*1~\r\n";
    vec![
        Report::told("line-end-cr-lf", ended("\r\n"), [0, 7, 2, 90]),
        Report::told("line-end-lf", ended("\n"), [0, 7, 2, 84]),
        Report::told("line-end-cr", ended("\r"), [0, 7, 2, 84]),
        Report::told("line-end-none", ended(""), [0, 7, 2, 78]),
        Report::told("line-end-mixed", mixed, [0, 7, 2, 85]),
        Report::told("line-end-lf-cr", ended("\n\r"), [5, 2, 13, 0]),
        Report::told("line-end-cr-cr-lf", ended("\r\r\n"), [5, 2, 13, 0]),
        Report::told("line-end-twice", ended("\r\n\r\n"), [5, 2, 14, 0]),
        Report::told("line-end-last", format!("{}~\r\n", W1[0]), [3, 2, 14, 0]),
        Report::told("line-end-bin", format!("{before_bin}BIN*2*\r\n~\r\nSE*7*0001~\r\n"), [0, 7, 1, 69]),
        Report::told("line-end-bin-broken", format!("{before_bin}BIN*2*\r\n\r\n~"), [10, 6, 48, 2]),
        Report::refused("line-end-before-st", format!("\n{}", joined(&W1)), 5, 1, 0),
        Report::refused("line-end-in-element", format!("{}\n~", W1[0]), 5, 1, 2),
        Report::refused("line-end-alone", "\n".to_string(), 3, 1, 0),
        Report::told("line-end-behind-se", joined(&W1) + "\n", [0, 7, 2, 78]),
        Report::told("line-end-behind-se-cr-lf", joined(&W1) + "\r\n", [0, 7, 2, 78]),
    ]
}

/// The element of this number is empty and the last, or it has a byte that is no data.
fn at_element(number: usize) -> [Report; 2] {
    let empty = format!("REF{}", "*".repeat(number));
    let spoilt = format!("{empty}\0");
    let element = number as u64;
    [
        Report::refused(&format!("element-{number}-empty"), in_heading(&[&empty]), 6, 3, element),
        Report::refused(&format!("element-{number}-spoilt"), in_heading(&[&spoilt]), 5, 3, element),
    ]
}

/// The third segment, which starts at this byte, has no tag of the 34.
fn at_byte(byte: usize) -> Report {
    let start = "ST*842*0001~BNR*";
    let text = format!("{start}{}~XX*~", "X".repeat(byte - 1 - start.len()));
    Report::told(&format!("byte-{byte}"), text, [4, 3, byte as u64, 0])
}

/// The segment of this number is a second BNR, which no row takes.
fn at_segment(number: usize) -> Report {
    let mut segments = vec!["ST*842*0001", "BNR*1"];
    segments.resize(number - 1, "REF*A");
    segments.push("BNR*2");
    Report::refused(&format!("segment-{number}"), closed(&segments), 7, number as u64, 0)
}
