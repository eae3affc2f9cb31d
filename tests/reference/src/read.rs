//! Reading one transaction, from ST to SE: one pass, no allocation of its own.

use crate::answer::{Answer, Fault};
use crate::cut::{Cut, Kinds};
use crate::elements::{self, AllRules};
use crate::levels::{Earlier, InPlace, Level, Names, LEVEL_NUMBERS, SEGMENT_NUMBERS};
use crate::line_ends::{LineEnds, Skipping};
use crate::profile::{Profile, Rows};
use crate::rows::{self, Tag};
use crate::separators::Separators;

/// The most bytes an input may have.
pub const LONGEST: usize = 1_048_576;

/// Reads a transaction and fills both tables (document 01, "What the tables hold" and "Answers in
/// the order they are tested"). A refusal at segment k leaves the records of segments 1 to k-1;
/// every other number of both tables keeps what it held. Starts, in tables and answers, come behind
/// skipped line ends (document 02, Item 3). The profile says which rows and levels there may be (document
/// 02, Item 9).
pub fn read(
    input: &[u8],
    separators: Separators,
    line_ends: LineEnds,
    profile: Profile,
    segments: &mut [u64],
    levels: &mut [u64],
) -> Answer {
    read_by(InPlace, input, separators, line_ends, profile, segments, levels)
}

/// The same, with levels found by these names.
#[inline]
pub fn read_by<'a>(
    names: impl Names<'a>,
    input: &'a [u8],
    separators: Separators,
    line_ends: LineEnds,
    profile: Profile,
    segments: &'a mut [u64],
    levels: &'a mut [u64],
) -> Answer {
    if !separators.fit() {
        return Answer::bare(1, 0);
    }
    if input.len() > LONGEST {
        return Answer::bare(2, 0);
    }
    let skipping = Skipping::new(line_ends, separators);
    Reader::new(names, input, separators, profile, segments, levels).run(skipping)
}

/// A reading under way.
struct Reader<'a, N> {
    /// The names of the levels that are accepted.
    names: N,
    input: &'a [u8],
    separators: Separators,
    profile: Profile,
    /// The rows and the element rules of the profile.
    rows: &'static Rows,
    rules: &'static AllRules,
    segments: &'a mut [u64],
    levels: &'a mut [u64],
    /// How many segments are accepted.
    count: usize,
    /// How many levels are accepted.
    level_count: usize,
    /// The row of the last accepted segment, 0 before the first.
    row: usize,
    /// How many segments in a row have that row.
    repeated: u8,
    /// How many levels are marked `1` and have no child yet.
    waiting: usize,
    /// Where ST02 begins and ends.
    control: (usize, usize),
}

impl<'a, N: Names<'a>> Reader<'a, N> {
    fn new(
        names: N,
        input: &'a [u8],
        separators: Separators,
        profile: Profile,
        segments: &'a mut [u64],
        levels: &'a mut [u64],
    ) -> Reader<'a, N> {
        Reader {
            names,
            input,
            separators,
            profile,
            rows: profile.rows(),
            rules: elements::rules(profile),
            segments,
            levels,
            count: 0,
            level_count: 0,
            row: 0,
            repeated: 0,
            waiting: 0,
            control: (0, 0),
        }
    }

    /// Takes segment after segment until SE is accepted or one is refused.
    fn run(mut self, skipping: Skipping) -> Answer {
        let kinds = Kinds::new(self.separators);
        let mut cut = Cut::new();
        let mut start = 0;
        loop {
            match cut.segment(self.input, start, &kinds).and_then(|()| self.take(&cut)) {
                Err(Fault { number, element }) => {
                    return Answer::Refused { number, segment: self.count + 1, byte: start, element };
                }
                Ok(tag) => {
                    self.count += 1;
                    let behind = cut.end + 1;
                    if tag == Tag::SE as usize {
                        return Answer::Accepted {
                            segments: self.count,
                            levels: self.level_count,
                            bytes: behind,
                        };
                    }
                    start = skipping.start(self.input, behind);
                }
            }
        }
    }

    /// Tests one segment in the order 5, 4, 6, 7, 24, 9, 8, 10, 11, 12, 13, 14, 16, 15, 17 and
    /// writes its records. Gives its tag.
    #[inline]
    fn take(&mut self, cut: &Cut) -> Result<usize, Fault> {
        if let Some(element) = cut.bad {
            return Err(Fault::new(5, element));
        }
        let Some(tag) = rows::tag_number(cut.tag(self.input)) else {
            return Err(Fault::new(4, 0));
        };
        if cut.elements == 0 {
            return Err(Fault::new(6, 0));
        }
        if let Some(element) = cut.hollow {
            return Err(Fault::new(6, element));
        }
        self.step(tag)?;
        if let Some(rules) = self.rules[tag] {
            elements::check(rules, cut, self.input, self.separators.component)?;
        }
        if tag == Tag::HL as usize {
            self.take_level(cut)?;
        } else {
            if tag == Tag::SE as usize {
                self.close(cut)?;
            } else if tag == Tag::ST as usize {
                self.control = cut.span(2);
            }
            if self.segments.len() / SEGMENT_NUMBERS <= self.count {
                return Err(Fault::new(17, 0));
            }
        }
        self.note_segment(cut, tag);
        Ok(tag)
    }

    /// Answer 7: finds the row, by the whole list in either profile. A maximum of 2 is counted within one
    /// pass, since another row, the one that opens the loop, stands between two passes. Then answer 24: the
    /// profile does not have that row.
    #[inline]
    fn step(&mut self, tag: usize) -> Result<(), Fault> {
        let next = usize::from(rows::NEXT[self.row][tag]);
        if next == 0 {
            return Err(Fault::new(7, 0));
        }
        self.repeated = if next == self.row { self.repeated.saturating_add(1) } else { 1 };
        if rows::MOST[next] == 2 && self.repeated > 2 {
            return Err(Fault::new(7, 0));
        }
        if !self.rows[next] {
            return Err(Fault::new(24, 0));
        }
        self.row = next;
        Ok(())
    }

    /// Answers 12 to 15 at an HL, then 17, which asks for room in both tables; then the level's record.
    #[inline]
    fn take_level(&mut self, cut: &Cut) -> Result<(), Fault> {
        let earlier = Earlier {
            input: self.input,
            element: self.separators.element,
            profile: self.profile,
            segments: &self.segments[..self.count * SEGMENT_NUMBERS],
            levels: &self.levels[..self.level_count * LEVEL_NUMBERS],
        };
        let level = earlier.level(cut, &self.names)?;
        if self.segments.len() / SEGMENT_NUMBERS <= self.count
            || self.levels.len() / LEVEL_NUMBERS <= self.level_count
        {
            return Err(Fault::new(17, 0));
        }
        self.note_level(&level);
        self.names.add(cut.element(self.input, 1), level.parent);
        Ok(())
    }

    /// Answers 16 and 15 at SE: the number of segments, ST02 again, no mark `1` unfilled.
    fn close(&mut self, cut: &Cut) -> Result<(), Fault> {
        let written = cut
            .element(self.input, 1)
            .iter()
            .fold(0, |number: u64, digit| number * 10 + u64::from(digit - b'0'));
        if written != self.count as u64 + 1 {
            return Err(Fault::new(16, 1));
        }
        let (from, to) = self.control;
        if *cut.element(self.input, 2) != self.input[from..to] {
            return Err(Fault::new(16, 2));
        }
        if self.waiting != 0 {
            return Err(Fault::new(15, 0));
        }
        Ok(())
    }

    /// Writes the segment's record: start, length without terminator, row, level. A segment belongs to the
    /// level of the latest HL, an HL to its own, which is counted before this; SE to none (document 02,
    /// Item 5).
    #[inline]
    fn note_segment(&mut self, cut: &Cut, tag: usize) {
        let at = self.count * SEGMENT_NUMBERS;
        let record = &mut self.segments[at..at + SEGMENT_NUMBERS];
        record[0] = cut.start as u64;
        record[1] = (cut.end - cut.start) as u64;
        record[2] = self.row as u64;
        record[3] = if tag == Tag::SE as usize { 0 } else { self.level_count as u64 };
    }

    /// Writes the level's record: segment number, parent's level number, depth, code.
    #[inline]
    fn note_level(&mut self, level: &Level) {
        let at = self.level_count * LEVEL_NUMBERS;
        let record = &mut self.levels[at..at + LEVEL_NUMBERS];
        record[0] = self.count as u64 + 1;
        record[1] = level.parent;
        record[2] = level.depth;
        record[3] = level.code;
        self.level_count += 1;
        self.waiting += usize::from(level.waits);
        self.waiting -= usize::from(level.fills);
    }
}
