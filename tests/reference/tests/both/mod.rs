//! A reading by both readers, which must agree, and what it leaves behind.

use reference::plain::read_plain;
use reference::{read, read_hashed, LineEnds, Profile, Separators, LEVEL_NUMBERS, SEGMENT_NUMBERS};

/// The row of HL; there is no other.
const HL_ROW: u64 = 18;

/// What comes of a reading: the four numbers and both tables.
#[derive(Clone, Debug, PartialEq)]
pub struct Outcome {
    pub answer: [u64; 4],
    pub segments: Vec<u64>,
    pub levels: Vec<u64>,
}

impl Outcome {
    /// Before a reading, with so many numbers in the tables.
    fn lent(rooms: (usize, usize)) -> Outcome {
        let numbers = |first: u64, length: usize| (first..).take(length).collect();
        Outcome { answer: [9; 4], segments: numbers(700_000, rooms.0), levels: numbers(800_000, rooms.1) }
    }

    /// The records of the segments that were accepted: start, length, row, level.
    pub fn records(&self) -> &[[u64; SEGMENT_NUMBERS]] {
        let count = match self.answer {
            [0, segments, ..] => segments,
            [_, segment, ..] => segment.saturating_sub(1),
        };
        &self.segments.as_chunks().0[..count as usize]
    }

    /// Whether every number behind the records holds what it held.
    fn keeps_the_rest(&self) -> bool {
        let levels = self.records().iter().filter(|record| record[2] == HL_ROW).count() * LEVEL_NUMBERS;
        let segments = self.records().len() * SEGMENT_NUMBERS;
        let before = Outcome::lent((self.segments.len(), self.levels.len()));
        self.segments[segments..] == before.segments[segments..]
            && self.levels[levels..] == before.levels[levels..]
    }
}

/// How a report is read: the choice about line ends and the profile.
pub type How = (LineEnds, Profile);

/// Reads by both readers, and with the hash, with so many numbers in the tables; they must agree, and write
/// nothing but records.
pub fn given(input: &[u8], set: Separators, how: How, rooms: (usize, usize)) -> Outcome {
    let [fast, hashed, plain] = [read, read_hashed, read_plain].map(|reader| {
        let mut lent = Outcome::lent(rooms);
        lent.answer = reader(input, set, how.0, how.1, &mut lent.segments, &mut lent.levels).numbers();
        lent
    });
    let told = || format!("{} {set:?} {how:?}", input.escape_ascii());
    assert_eq!(fast, plain, "{}", told());
    assert_eq!(fast, hashed, "hashed: {}", told());
    assert!(fast.keeps_the_rest(), "{}", told());
    fast
}
