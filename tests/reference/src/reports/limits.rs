//! Reports at the limits of the program: 65,536 bytes, 1,000 segments, 200 levels.

use super::Report;
use crate::vectors::text::{closed, in_level, joined, start_of, W1};

const LONGEST: usize = 65_536;
const TOO_LONG: [u64; 4] = [2, 0, 0, 0];

pub fn reports() -> Vec<Report> {
    [bytes(), behind_the_se(), segments(), levels()].concat()
}

/// An accepted report of so many bytes, in five segments.
fn of_bytes(length: usize) -> String {
    let filling = length - in_level(&["REF*"]).len();
    in_level(&[&format!("REF*{}", "X".repeat(filling))])
}

fn bytes() -> Vec<Report> {
    let cut = &of_bytes(LONGEST + 1)[..LONGEST];
    let last = start_of(cut.as_bytes(), b'~', 5);
    vec![
        Report::told("bytes-0", "", [3, 1, 0, 0]),
        Report::told("bytes-1", "~", [4, 1, 0, 0]),
        Report::accepted("bytes-65535", of_bytes(LONGEST - 1), 5, 1),
        Report::accepted("bytes-65536", of_bytes(LONGEST), 5, 1),
        Report::told("bytes-65536-cut", cut, [3, 5, last, 0]),
        Report::told("bytes-65536-no-terminator", "X".repeat(LONGEST), [3, 1, 0, 0]),
        Report::told("bytes-65536-terminators", "~".repeat(LONGEST), [4, 1, 0, 0]),
        Report::told("bytes-65537", of_bytes(LONGEST + 1), TOO_LONG),
        Report::told("bytes-65537-no-terminator", "X".repeat(LONGEST + 1), TOO_LONG),
        Report::told("bytes-65537-terminators", "~".repeat(LONGEST + 1), TOO_LONG),
    ]
}

/// W1 with bytes of every kind behind its SE, so many in all.
fn behind_the_se() -> Vec<Report> {
    let filled = |length: usize| -> Vec<u8> {
        joined(&W1).bytes().chain((0..=255).rev().cycle()).take(length).collect()
    };
    let w1 = [0, 7, 2, 78];
    vec![
        Report::told("behind-se-1", filled(79), w1),
        Report::told("behind-se-again", joined(&[W1, W1].concat()), w1),
        Report::told("behind-se-65536", filled(LONGEST), w1),
        Report::told("behind-se-65537", filled(LONGEST + 1), TOO_LONG),
        Report::told("behind-se-131072", filled(2 * LONGEST), TOO_LONG),
        Report::told("behind-se-1048577", filled(1_048_577), TOO_LONG),
    ]
}

/// ST, BNR, these levels, and faults up to so many segments; no SE.
fn open(levels: &[String], segments: usize) -> Vec<String> {
    let faults = ["NCD*1", "QTY*01*25", "NCA**R1"].map(String::from);
    let start = ["ST*842*0001", "BNR*1"].map(String::from);
    start.into_iter().chain(levels.iter().cloned()).chain(faults.into_iter().cycle()).take(segments).collect()
}

/// The report with CR LF between its segments.
fn in_lines(report: &str) -> String {
    report.split_inclusive('~').collect::<Vec<&str>>().join("\r\n")
}

fn segments() -> Vec<Report> {
    let open = |segments| open(&["HL*1**I".to_string()], segments);
    let and = |segments, last: &str| [open(segments), vec![last.to_string()]].concat();
    let last = in_lines(&joined(&open(1000))).len() as u64 + 2;
    vec![
        Report::accepted("segments-999", closed(&open(998)), 999, 1),
        Report::accepted("segments-1000", closed(&open(999)), 1000, 1),
        Report::accepted("segments-1000-in-lines", in_lines(&closed(&open(999))), 1000, 1),
        Report::refused("segments-1001", closed(&open(1000)), 17, 1001, 0),
        Report::told("segments-1001-in-lines", in_lines(&closed(&open(1000))), [17, 1001, last, 0]),
        Report::refused("segments-1001-no-se", closed(&open(1001)), 17, 1001, 0),
        Report::refused("segments-1001-hl", closed(&and(1000, "HL*2*1*F")), 17, 1001, 0),
        Report::refused("segments-1001-wrong-se", joined(&and(1000, "SE*1000*0001")), 16, 1001, 1),
        Report::refused("segments-1001-wrong-hl", closed(&and(1000, "HL*2*1*I")), 14, 1001, 2),
        Report::refused("segments-1001-no-terminator", joined(&open(1000)), 3, 1001, 0),
    ]
}

/// So many levels: a report, an item under it, a component under that, and under the component a
/// product characteristic and a serial number; then the next report.
fn tree(levels: usize) -> Vec<String> {
    let level = |number: usize| match number % 5 {
        1 => format!("HL*{number}**RP"),
        2 => format!("HL*{number}*{}*I*1", number - 1),
        3 => format!("HL*{number}*{}*F*1", number - 1),
        4 => format!("HL*{number}*{}*PC*0", number - 1),
        _ => format!("HL*{number}*{}*SN", number - 2),
    };
    (1..=levels).map(level).collect()
}

/// Two hundred levels far from their parents: fifty reports, then an item under each, a component under each
/// item and a product characteristic under each component, every fifty in the opposite order of those before.
fn crossed() -> Vec<String> {
    let level = |number: usize| {
        let parent = (number - 1) / 50 * 50 - (number - 1) % 50;
        match (number - 1) / 50 {
            1 => format!("HL*{number}*{parent}*I"),
            2 => format!("HL*{number}*{parent}*F"),
            _ => format!("HL*{number}*{parent}*PC"),
        }
    };
    (1..=50).map(|number| format!("HL*{number}**RP")).chain((51..=200).map(level)).collect()
}

/// Each level with a fault behind it.
fn with_faults(levels: &[String]) -> Vec<String> {
    let faulty = |level: &String| [level.as_str(), "NCD*1", "QTY*01*25", "NCA**R1"].map(String::from);
    levels.iter().flat_map(faulty).collect()
}

fn levels() -> Vec<Report> {
    let only = |levels: &[String]| closed(&open(levels, 2 + levels.len()));
    let last = |level: &str| only(&[tree(200), vec![level.to_string()]].concat());
    vec![
        Report::accepted("levels-5", only(&tree(5)), 8, 5),
        Report::accepted("levels-199", only(&tree(199)), 202, 199),
        Report::accepted("levels-200", only(&tree(200)), 203, 200),
        Report::accepted("levels-200-crossed", only(&crossed()), 203, 200),
        Report::accepted("levels-200-with-faults", only(&with_faults(&tree(200))), 803, 200),
        Report::accepted("levels-200-segments-1000", closed(&open(&tree(200), 999)), 1000, 200),
        Report::refused("levels-200-segments-1001", closed(&open(&tree(200), 1000)), 17, 1001, 0),
        Report::refused("levels-201", only(&tree(201)), 17, 203, 0),
        Report::refused("levels-201-used-before", last("HL*200**RP"), 12, 203, 1),
        Report::refused("levels-201-wrong-mark", last("HL*201*198*PC*1"), 15, 203, 4),
    ]
}
