//! The reports whose bytes are timed.

use crate::lines::{Values, FAULT, LONG, QUANTITIES, REPLY, SHORT};
use crate::report::{Input, Report};

/// About 1 MB, less than the limit of 1,048,576 bytes.
const LARGE: usize = 1_000_000;

/// So much of it is left for the segments where line ends stand between them.
const LARGE_WITHOUT_LINE_ENDS: usize = 925_000;

/// What opens an item's faults.
const OPENS: &str = "NCD*1";

/// What a BIN is full of: the separators, and those that it is rewritten to.
const SEPARATORS: &str = "*:~|^'";

/// A report of about so many bytes with so many levels, each followed by a fault and by line after line.
fn report(size: usize, levels: usize, mut line: impl FnMut(usize) -> String) -> Vec<u8> {
    let mut report = Report::rooted();
    for level in 1..=levels {
        report.add(&format!("HL*{level}*R*I*0"));
        report.add(OPENS);
        report.fill(level * (size / levels), &mut line);
    }
    report.close()
}

/// The same with these lines again and again.
fn repeated(size: usize, levels: usize, lines: &[&str]) -> Vec<u8> {
    report(size, levels, |turn| lines[turn % lines.len()].to_string())
}

/// The same with lines that have other values each time.
fn varied(size: usize, levels: usize, line: fn(&mut Values, usize) -> String) -> Vec<u8> {
    let mut values = Values::new();
    report(size, levels, |turn| line(&mut values, turn))
}

/// The same, with names that count downwards and levels that hang under two items in turn.
fn scattered(size: usize, levels: usize, lines: &[&str]) -> Vec<u8> {
    let mut report = Report::rooted();
    for item in ["A", "B"] {
        report.add(&format!("HL*{item}*R*I*1"));
    }
    let share = size / levels;
    for level in 1..=levels {
        let item = if level % 2 == 0 { "A" } else { "B" };
        report.add(&format!("HL*{}*{item}*F*0", 2 * levels - level));
        report.add(OPENS);
        report.fill(level * share, |turn| lines[turn % lines.len()].to_string());
    }
    report.close()
}

/// A storage-quality reply of about so many bytes with so many levels, none under another.
fn reply(size: usize, levels: usize) -> Vec<u8> {
    let mut reply = Report::new();
    for level in 1..=levels {
        reply.add(&format!("HL*{level}**RB"));
        reply.fill(level * (size / levels), |turn| REPLY[turn % REPLY.len()].to_string());
    }
    reply.close()
}

/// A BIN of so many bytes, all of them separators.
fn bin(length: usize) -> String {
    let bytes: String = SEPARATORS.chars().cycle().take(length).collect();
    format!("BIN*{length}*{bytes}")
}

/// A report with one BIN of so many bytes and little else.
fn one_bin(length: usize) -> Vec<u8> {
    let mut report = Report::rooted();
    ["HL*1*R*I*0", OPENS, "EFI*1*PHOTO*JPG", &bin(length)].iter().for_each(|segment| report.add(segment));
    report.close()
}

/// A report with so many levels and BINs of 30 to 60 bytes, each in a fault of its own, with another fault before the next:
/// some 490 bytes for each BIN.
fn small_bins(bins: usize, levels: usize) -> Vec<u8> {
    let mut report = Report::rooted();
    let share = bins / levels;
    let (before, behind) = FAULT.split_at(5);
    for number in 0..bins {
        if number % share == 0 {
            report.add(&format!("HL*{}*R*I*0", number / share + 1));
        }
        before.iter().for_each(|line| report.add(line));
        report.add("EFI*1*PHOTO*JPG");
        report.add(&bin(30 + number % 31));
        behind.iter().chain(&FAULT).chain(&FAULT[..1]).for_each(|line| report.add(line));
    }
    report.close()
}

/// All inputs, the large ones first.
pub fn inputs() -> Vec<Input> {
    vec![
        Input::new("1 MB, 50 levels", repeated(LARGE, 50, &FAULT)),
        Input::in_lines("1 MB, 50 levels, CR LF", &repeated(LARGE_WITHOUT_LINE_ENDS, 50, &FAULT)),
        Input::new("1 MB, 50 levels, varied", varied(LARGE, 50, Values::fault)),
        Input::new("1 MB, 1,000 levels", repeated(LARGE, 1000, &FAULT)),
        Input::new("1 MB, 1,000 levels, no order", scattered(LARGE, 1000, &FAULT)),
        Input::new("1 MB, short plain segments", repeated(LARGE, 50, &SHORT)),
        Input::new("1 MB, short plain, varied", varied(LARGE, 50, Values::short)),
        Input::new("1 MB, long elements", repeated(LARGE, 50, &LONG)),
        Input::new("1 MB, quantities", repeated(LARGE, 50, &QUANTITIES)),
        Input::reply("1 MB, reply, 50 levels", reply(LARGE, 50)),
        Input::new("1 MB, 2,000 small BINs", small_bins(2_000, 50)),
        Input::new("900 KB, one BIN", one_bin(900_000)),
        Input::new("100 bytes", repeated(100, 1, &FAULT[5..6])),
        Input::new("1 KB", repeated(1_000, 2, &FAULT)),
        Input::new("10 KB", repeated(10_000, 10, &FAULT)),
        Input::new("10 KB, varied", varied(10_000, 10, Values::fault)),
    ]
}
