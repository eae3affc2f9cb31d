//! The row list as the paper prints it, and the ways in which a report may still go on.

use std::rc::Rc;

/// The 79 rows, letter for letter.
pub const PAPER: &str = "1 ST!/1, 2 BNR!/1, 3 REF, 4 DTM, 5 PID, [6 MEA, 7 DTM, 8 REF], \
[9 PWK, 10 REF, 11 DTM], [12 N1, 13 N2/2, 14 N3/2, 15 N4/1, 16 REF, 17 PER], \
[18 HL!, 19 LIN/1, 20 PID, 21 PRS, 22 CID, 23 DTM, 24 REF, 25 CS/1, 26 QTY, 27 TMD/1, 28 PSD/1, 29 PWK, \
[30 LM, 31 LQ!], [32 MEA, 33 DTM, 34 REF], [35 FA1, 36 FA2!], \
[37 SPS, 38 REF, 39 PSD/1, [40 MEA, 41 DTM, 42 REF], [43 STA, 44 DTM, 45 REF]], \
[46 NCD, 47 NTE, 48 DTM, 49 REF, 50 QTY, 51 AMT, 52 MEA, 53 RC, [54 EFI, 55 BIN!/1], \
[56 N1, 57 N2/2, 58 N3/2, 59 N4/1, 60 REF, 61 PER], [62 LM, 63 LQ!], \
[64 NCA, 65 NTE, 66 DTM, 67 REF, [68 PWK, 69 REF, 70 DTM], \
[71 N1, 72 N2/2, 73 N3/2, 74 N4/1, 75 REF, 76 PER], [77 LM, 78 LQ!]]]], 79 SE!/1.";

/// Something that is still to come, so many times at least and at most.
#[derive(Clone, Debug, PartialEq, Eq)]
pub enum Part {
    /// A row.
    Row {
        /// Its number.
        number: usize,
        /// Its tag.
        tag: &'static str,
        /// How many times it must still come.
        least: usize,
        /// How many times it may still come; none for freely.
        most: Option<usize>,
    },
    /// A loop that repeats freely.
    Loop {
        /// How many passes must still come.
        least: usize,
        /// What one pass holds.
        pass: Rc<Vec<Part>>,
    },
}

/// The ways in which a report may go on; each is what is still to come, in order.
pub type Ways = Vec<Vec<Part>>;

/// The one way before the first segment: the whole list.
pub fn first_ways() -> Ways {
    vec![parse(PAPER)]
}

/// Reads the list as printed.
pub fn parse(text: &'static str) -> Vec<Part> {
    let mut rest = text;
    let list = list(&mut rest);
    assert!(rest.is_empty(), "left over: {rest}");
    list
}

/// Reads entries until the list or the bracket closes.
fn list(rest: &mut &'static str) -> Vec<Part> {
    let mut parts = Vec::new();
    loop {
        *rest = rest.trim_start_matches([',', ' ']);
        if let Some(after) = rest.strip_prefix('[') {
            *rest = after;
            parts.push(bracket(list(rest)));
        } else if let Some(after) = rest.strip_prefix([']', '.']) {
            *rest = after;
            return parts;
        } else {
            let end = rest.find([',', ']', '.']).expect("the list ends with a full stop");
            parts.push(row(&rest[..end]));
            *rest = &rest[end..];
        }
    }
}

/// A row: `13 N2/2`, `31 LQ!`, `1 ST!/1`.
fn row(text: &'static str) -> Part {
    let (number, name) = text.split_once(' ').expect("a number and a tag");
    let (name, most) = match name.split_once('/') {
        Some((name, most)) => (name, Some(most.parse().expect("a maximum"))),
        None => (name, None),
    };
    Part::Row {
        number: number.parse().expect("a row number"),
        tag: name.trim_end_matches('!'),
        least: usize::from(name.ends_with('!')),
        most,
    }
}

/// A loop. Its first row opens it and occurs once in each pass; where that row is marked `!`, at
/// least one pass must come.
fn bracket(mut pass: Vec<Part>) -> Part {
    let Part::Row { least, most, .. } = &mut pass[0] else {
        panic!("a loop opens with a row");
    };
    let passes = *least;
    (*least, *most) = (1, Some(1));
    Part::Loop { least: passes, pass: Rc::new(pass) }
}

/// Every row that can take the tag, each with what is to come after it.
pub fn candidates(ways: &Ways, tag: &str) -> Vec<(usize, Vec<Part>)> {
    let mut found = Vec::new();
    for way in ways {
        for candidate in go_on(way, tag) {
            if !found.contains(&candidate) {
                found.push(candidate);
            }
        }
    }
    found
}

/// The candidates of one way.
fn go_on(way: &[Part], tag: &str) -> Vec<(usize, Vec<Part>)> {
    let Some((first, rest)) = way.split_first() else {
        return Vec::new();
    };
    let (mut found, must) = match first {
        Part::Row { number, tag: own, least, most } => {
            let mut found = Vec::new();
            if *own == tag && *most != Some(0) {
                // The row takes it, and may come once less.
                let again = Part::Row {
                    number: *number,
                    tag: own,
                    least: least.saturating_sub(1),
                    most: most.map(|most| most - 1),
                };
                found.push((*number, [&[again], rest].concat()));
            }
            (found, *least > 0)
        }
        Part::Loop { least, pass } => {
            // A pass begins, then the loop may come again, then the rest.
            let again = Part::Loop { least: least.saturating_sub(1), pass: pass.clone() };
            (go_on(&[pass.as_slice(), &[again], rest].concat(), tag), *least > 0)
        }
    };
    if !must {
        // It does not come, or not again.
        found.extend(go_on(rest, tag));
    }
    found
}
