//! Tables that own their records.

#![forbid(unsafe_code)]

use crate::answer::{Accepted, Refusal};
use crate::how::How;
use crate::outline::{self, Outline};
use crate::reading::{read, LONGEST};
use crate::records::{Level, SegmentRecord};
use crate::rewriting::rewrite;
use crate::separators::Separators;
use crate::valid::Valid;

/// How many levels [`Tables::for_input`] makes room for at most.
pub const DEFAULT_LEVELS: usize = 4_096;

/// The fewest bytes of a segment with its terminator: a tag of two letters, a separator, one byte of data.
const SHORTEST_SEGMENT: usize = 5;

/// How many segments an input can have at most, and how many levels: each is made by a segment.
const MOST: usize = LONGEST / SHORTEST_SEGMENT;

/// A segment table and a level table, with the records of the last reading. They can be used again, for any input that
/// has room in them.
///
/// A large report takes 1 to 3 nanoseconds a byte, and each level some 50 more up to 1,000 levels, whatever order names and
/// parents come in; 4,096 levels take up to 0.6 milliseconds in all, 20,000 up to 10.3 (AMD EPYC). Names that are made
/// to fall together take longer, 3 nanoseconds for every two of them: 25 milliseconds at 4,096. The room for levels bounds
/// that number: a report with more is refused with [`Reason::NoRoom`](crate::Reason::NoRoom). [`Tables::for_input`] makes
/// room for [`DEFAULT_LEVELS`] and no more; who wants more asks for it by [`Tables::with_room`].
#[derive(Clone, Debug)]
pub struct Tables {
    segments: Vec<SegmentRecord>,
    levels: Vec<Level>,
    valid: Valid,
}

impl Tables {
    /// Room for every segment that the input can have, and for as many levels, but at most [`DEFAULT_LEVELS`].
    pub fn for_input(input: &[u8]) -> Tables {
        let segments = input.len() / SHORTEST_SEGMENT;
        Tables::with_room(segments, segments.min(DEFAULT_LEVELS))
    }

    /// Room for so many segments and levels. No input has more than 209,715 of either, and no more room is made.
    pub fn with_room(segments: usize, levels: usize) -> Tables {
        Tables {
            segments: vec![SegmentRecord::default(); segments.min(MOST)],
            levels: vec![Level::default(); levels.min(MOST)],
            valid: Valid::default(),
        }
    }

    /// Reads one transaction from the start of the input, as [`read`] does.
    pub fn read(&mut self, input: &[u8], separators: Separators, how: How) -> Result<Accepted, Refusal> {
        let answer = read(input, separators, how, &mut self.segments, &mut self.levels);
        self.note(answer)
    }

    /// Reads one transaction and writes it to the output with other separators, as [`rewrite`] does.
    pub fn rewrite(
        &mut self,
        input: &[u8],
        separators: Separators,
        how: How,
        new: Separators,
        output: &mut [u8],
    ) -> Result<Accepted, Refusal> {
        let answer = rewrite(input, separators, how, new, &mut self.segments, &mut self.levels, output);
        self.note(answer)
    }

    /// The records of the segments that the last call accepted: all of an accepted report, those before the refused
    /// segment of a refused one.
    pub fn segments(&self) -> &[SegmentRecord] {
        &self.segments[..self.valid.segments]
    }

    /// The records of the levels that these segments make.
    pub fn levels(&self) -> &[Level] {
        &self.levels[..self.valid.levels]
    }

    /// The outline of these levels: each under its parent, with the segments that belong to it. Memory for the order of the
    /// levels is allocated; [`outline`](crate::outline()) allocates none.
    ///
    /// ```
    /// use stormhlaw::{How, Separators, Tables};
    ///
    /// let report = b"ST*842*0001~BNR*11*NR7*20240301~HL*1**RP*1~HL*2*1*I*0~NCD*1~NCA**R1~SE*7*0001~";
    /// let mut tables = Tables::for_input(report);
    /// tables.read(report, Separators::STANDARD, How::new())?;
    ///
    /// let item = tables.outline().nth(1).unwrap();
    /// assert_eq!((item.number, item.depth(), item.segment(), item.byte()), (2, 2, 4, Some(43)));
    /// assert_eq!(item.name(report, Separators::STANDARD), Some(&b"2"[..]));
    /// assert_eq!((item.range(), item.segments.len()), (4..7, 3));
    /// # Ok::<(), stormhlaw::Refusal>(())
    /// ```
    pub fn outline(&self) -> Outline<'_> {
        outline::owned(self.segments(), self.levels()).expect("a reading leaves levels that are fit")
    }

    /// Keeps how many records are valid after this answer.
    fn note(&mut self, answer: Result<Accepted, Refusal>) -> Result<Accepted, Refusal> {
        self.valid = match answer {
            Ok(accepted) => accepted.into(),
            Err(refusal) => refusal.valid(&self.segments),
        };
        answer
    }
}
