//! The same reading in the plainest way: slow, allocating, and taken from the words of document 01 and
//! of document 02, Items 1, 3, 5, 6 and 9.
//!
//! It shares with the fast reader only the types of the separators, of the choice between readings, of
//! the profile, of the answer and of a number. The row list and the element rules are read from the paper's text at run
//! time, rows are found from the bracketed list itself by keeping every way in which the list may still
//! go on, and numbers in a list of all forms that one may have.

mod elements;
mod number;
mod profile;
mod rows;
mod segment;

pub use elements::{rules, Kind, Note, Rule, Rules};
pub use number::{forms, number_plain, Form};
pub use rows::{candidates, first_ways, parse, Part, Ways, PAPER};

use crate::{Answer, LineEnds, Profile, Separators};
use segment::Segment;

/// A fault: the answer's number and the element.
type Fault = (usize, usize);

/// How many numbers a record has, of a segment and of a level alike.
const RECORD: usize = 4;

/// Reads a transaction and fills both tables, as `read` does.
pub fn read_plain(
    input: &[u8],
    separators: Separators,
    line_ends: LineEnds,
    profile: Profile,
    segments: &mut [u64],
    levels: &mut [u64],
) -> Answer {
    if !fit(separators) {
        return refusal(1, 0, 0, 0);
    }
    if input.len() > 1_048_576 {
        return refusal(2, 0, 0, 0);
    }
    let mut reading = Reading::new(separators, profile);
    let mut start = 0;
    loop {
        let number = reading.accepted.len() + 1;
        if line_ends == LineEnds::Skipped && number > 1 {
            start += line_end(&input[start..], separators);
        }
        let taken = Segment::first(&input[start..], start, separators)
            .and_then(|segment| reading.take(segment, segments.len() / RECORD, levels.len() / RECORD));
        let segment = match taken {
            Ok(segment) => segment,
            Err((answer, element)) => return refusal(answer, number, start, element),
        };
        reading.copy_records(segments, levels);
        start += segment.length + 1;
        if segment.tag() == b"SE" {
            return Answer::Accepted { segments: number, levels: reading.levels.len(), bytes: start };
        }
    }
}

/// How many bytes are skipped of what stands behind a terminator: at most one CR and then at most one LF,
/// unless that byte is itself a separator.
fn line_end(rest: &[u8], separators: Separators) -> usize {
    let three = [separators.element, separators.component, separators.terminator];
    let mut left = rest;
    for byte in *b"\r\n" {
        if !three.contains(&byte) {
            left = left.strip_prefix(&[byte]).unwrap_or(left);
        }
    }
    rest.len() - left.len()
}

fn refusal(number: usize, segment: usize, byte: usize, element: usize) -> Answer {
    Answer::Refused { number, segment, byte, element }
}

/// Each must be a byte 1 to 126, not a letter, digit, space, `.` or `-`, and the three must differ.
fn fit(separators: Separators) -> bool {
    let three = [separators.element, separators.component, separators.terminator];
    let shut_out = b"ABCDEFGHIJKLMNOPQRSTUVWXYZabcdefghijklmnopqrstuvwxyz0123456789 .-";
    let each = three.iter().all(|byte| (1..=126).contains(byte) && !shut_out.contains(byte));
    each && three[0] != three[1] && three[1] != three[2] && three[0] != three[2]
}

/// A level that was accepted.
struct Level {
    name: Vec<u8>,
    segment: usize,
    /// The place of the parent in the list of levels, from 0.
    parent: Option<usize>,
    code: &'static str,
    mark: Vec<u8>,
}

/// A reading under way.
struct Reading {
    separators: Separators,
    profile: Profile,
    rules: Vec<Rules>,
    ways: Ways,
    /// Start, length, row and level of every accepted segment.
    accepted: Vec<[usize; RECORD]>,
    levels: Vec<Level>,
    control: Vec<u8>,
}

/// Every code, in the order of their numbers.
const CODES: [&str; 6] = ["RP", "I", "F", "PC", "SN", "RB"];
const PAIRS: [(&str, &str); 6] =
    [("RP", "I"), ("I", "F"), ("I", "PC"), ("F", "PC"), ("I", "SN"), ("F", "SN")];

impl Reading {
    fn new(separators: Separators, profile: Profile) -> Reading {
        Reading {
            separators,
            profile,
            rules: rules(profile),
            ways: first_ways(),
            accepted: Vec::new(),
            levels: Vec::new(),
            control: Vec::new(),
        }
    }

    /// Tests a segment in the paper's order, takes it in and gives it back.
    fn take(&mut self, segment: Segment, room: usize, level_room: usize) -> Result<Segment, Fault> {
        bad_byte(&segment)?;
        unknown_tag(&segment)?;
        empty_ends(&segment)?;
        let (row, ways) = self.row(&segment)?;
        self.foreign(row)?;
        if let Some(rules) = self.rules.iter().find(|rules| rules.tag.as_bytes() == segment.tag()) {
            rules.check(&segment.pieces, self.separators.component)?;
        }
        let level = if segment.tag() == b"HL" { Some(self.level(&segment)?) } else { None };
        if segment.tag() == b"SE" {
            self.closing(&segment)?;
        }
        let short = self.accepted.len() == room || (level.is_some() && self.levels.len() == level_room);
        if short {
            return Err((17, 0));
        }
        if segment.tag() == b"ST" {
            self.control = segment.text(2).to_vec();
        }
        self.ways = ways;
        self.levels.extend(level);
        self.accepted.push([segment.start, segment.length, row, self.level_of(&segment)]);
        Ok(segment)
    }

    /// The level that the next segment belongs to, searched for backwards: the last whose HL stands before the
    /// segment or is it. 0 where there is none, and for SE.
    fn level_of(&self, segment: &Segment) -> usize {
        let number = self.accepted.len() + 1;
        match self.levels.iter().rposition(|level| level.segment <= number) {
            Some(at) if segment.tag() != b"SE" => at + 1,
            _ => 0,
        }
    }

    /// 7: no row fits here.
    fn row(&self, segment: &Segment) -> Result<(usize, Ways), Fault> {
        let tag = std::str::from_utf8(segment.tag()).unwrap();
        let found = candidates(&self.ways, tag);
        let row = found.first().ok_or((7, 0))?.0;
        assert!(found.iter().all(|(other, _)| *other == row), "two rows fit");
        Ok((row, found.into_iter().map(|(_, way)| way).collect()))
    }

    /// 24: the row is not in the profile.
    fn foreign(&self, row: usize) -> Result<(), Fault> {
        if profile::has_row(self.profile, row) {
            Ok(())
        } else {
            Err((24, 0))
        }
    }

    /// 12 to 15 at an HL.
    fn level(&self, segment: &Segment) -> Result<Level, Fault> {
        let (name, parent, code, mark) = (segment.text(1), segment.text(2), segment.text(3), segment.text(4));
        if self.levels.iter().any(|level| level.name == name) {
            return Err((12, 1));
        }
        let found = self.levels.iter().position(|level| level.name == parent);
        if !parent.is_empty() && found.is_none() {
            return Err((13, 2));
        }
        let code = profile::code(self.profile, code).ok_or((14, 3))?;
        let asked_for_a_parent = self.profile == Profile::Report && code != "RP" && code != "I";
        match found {
            None if asked_for_a_parent => return Err((14, 3)),
            Some(at) if !PAIRS.contains(&(self.levels[at].code, code)) => return Err((14, 2)),
            Some(at) if self.levels[at].mark == b"0" => return Err((15, 2)),
            _ => {}
        }
        let closed = code == "PC" || code == "SN";
        let fit = mark.is_empty() || mark == b"0" || (mark == b"1" && !closed);
        if !fit {
            return Err((15, 4));
        }
        let level = Level {
            name: name.to_vec(),
            segment: self.accepted.len() + 1,
            parent: found,
            code,
            mark: mark.to_vec(),
        };
        assert!(self.depth(&level) <= 4, "the pairs keep every level within depth 4");
        Ok(level)
    }

    /// 1 without a parent, else the parent's plus one.
    fn depth(&self, level: &Level) -> usize {
        level.parent.map_or(1, |parent| self.depth(&self.levels[parent]) + 1)
    }

    /// 16 and 15 at SE.
    fn closing(&self, segment: &Segment) -> Result<(), Fault> {
        let count: u64 = std::str::from_utf8(segment.text(1)).unwrap().parse().unwrap();
        if count != self.accepted.len() as u64 + 1 {
            return Err((16, 1));
        }
        if segment.text(2) != self.control {
            return Err((16, 2));
        }
        let has_child = |at: usize| self.levels.iter().any(|level| level.parent == Some(at));
        let unfilled = |at: usize| self.levels[at].mark == b"1" && !has_child(at);
        if (0..self.levels.len()).any(unfilled) {
            return Err((15, 0));
        }
        Ok(())
    }

    /// Writes the last segment's records, and nothing else.
    fn copy_records(&self, segments: &mut [u64], levels: &mut [u64]) {
        let at = self.accepted.len() - 1;
        write_record(segments, at, self.accepted[at]);
        let Some((at, level)) = self.levels.iter().enumerate().next_back() else {
            return;
        };
        let code = CODES.iter().position(|known| *known == level.code).unwrap() + 1;
        let parent = level.parent.map_or(0, |parent| parent + 1);
        write_record(levels, at, [level.segment, parent, self.depth(level), code]);
    }
}

/// Writes the record at this place of a table, counted from 0.
fn write_record(table: &mut [u64], at: usize, record: [usize; RECORD]) {
    for (place, number) in record.into_iter().enumerate() {
        table[RECORD * at + place] = number as u64;
    }
}

/// 5: a byte neither data nor separator.
fn bad_byte(segment: &Segment) -> Result<(), Fault> {
    segment.bad.map_or(Ok(()), |piece| Err((5, piece)))
}

/// 4: the tag is not among the 34.
fn unknown_tag(segment: &Segment) -> Result<(), Fault> {
    let known = PAPER
        .split(|c: char| !c.is_ascii_alphanumeric())
        .any(|word| word.starts_with(|c: char| c.is_ascii_uppercase()) && word.as_bytes() == segment.tag());
    if known {
        Ok(())
    } else {
        Err((4, 0))
    }
}

/// 6: no element; or last element or a last component empty.
fn empty_ends(segment: &Segment) -> Result<(), Fault> {
    let last = segment.pieces.len() - 1;
    if last == 0 {
        return Err((6, 0));
    }
    for (number, piece) in segment.pieces.iter().enumerate().skip(1) {
        let hollow = piece.components.len() > 1 && piece.components.last().is_some_and(Vec::is_empty);
        if hollow || (number == last && piece.text.is_empty()) {
            return Err((6, number));
        }
    }
    Ok(())
}
