//! Reads the report in the file that is named and lists its segments with their elements and its levels with the text of
//! each HL01, or says why it is refused.
//!
//!     cargo run --offline --release --example list -- REPORT

#![forbid(unsafe_code)]

use std::borrow::Cow;
use std::process::ExitCode;
use stormhlaw::{How, Level, Segment, SegmentRecord, Separators, Tables};

fn main() -> ExitCode {
    let path = match std::env::args_os().nth(1) {
        Some(path) => path,
        None => {
            eprintln!("list REPORT");
            return ExitCode::from(2);
        }
    };
    match std::fs::read(&path) {
        Ok(report) => list(&report),
        Err(error) => {
            eprintln!("{}: {error}", path.to_string_lossy());
            ExitCode::from(2)
        }
    }
}

/// The segments and the levels; or the refusal.
fn list(report: &[u8]) -> ExitCode {
    let mut tables = Tables::for_input(report);
    if let Err(refusal) = tables.read(report, Separators::STANDARD, How::new()) {
        println!("{refusal}: {:?}", refusal.reason);
        return ExitCode::FAILURE;
    }
    for record in tables.segments() {
        if let Some(segment) = record.segment(report, Separators::STANDARD) {
            println!("{}: row {}, level {}", segment.tag().escape_ascii(), record.row, record.level);
            list_elements(segment);
        }
    }
    for level in tables.levels() {
        if let (Some(name), Some(code)) = (name(level, tables.segments(), report), level.code()) {
            println!("{name}: {code:?}, depth {}, parent {}", level.depth, level.parent);
        }
    }
    ExitCode::SUCCESS
}

/// What a viewer shows of a segment: each element, or each component of an element that has several. The last component
/// ends where its element ends, and the last element where the segment does.
fn list_elements(segment: Segment) {
    let (mut number, mut part) = (1, 1);
    loop {
        let (whole, found) = (segment.span(number, 0), segment.span(number, part));
        let name = if found == whole { format!("{number}") } else { format!("{number}.{part}") };
        if !found.is_empty() {
            println!("  {name}: {}", segment.component(number, part).escape_ascii());
        }
        if found.end < whole.end {
            part += 1;
        } else if whole.end < segment.bytes().len() {
            (number, part) = (number + 1, 1);
        } else {
            return;
        }
    }
}

/// The text of a level's HL01.
fn name<'a>(level: &Level, segments: &[SegmentRecord], report: &'a [u8]) -> Option<Cow<'a, str>> {
    let hl = level.hl(segments)?.segment(report, Separators::STANDARD)?;
    Some(String::from_utf8_lossy(hl.element(1)))
}
