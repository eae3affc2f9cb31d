//! The levels of a level table in the order of an outline.

#![forbid(unsafe_code)]

use crate::raw;
use crate::records::Level;
use std::error::Error;
use std::fmt;

/// A walk that is refused: answer 20 or 21.
#[derive(Clone, Copy, Debug, PartialEq, Eq, Hash)]
pub struct WalkRefusal {
    /// What is wrong.
    pub reason: WalkReason,
    /// The number of the first level that is unfit, from 1; 0 where no level is meant.
    pub level: usize,
}

/// Why a walk is refused. `number` gives the answer's number.
#[derive(Clone, Copy, Debug, PartialEq, Eq, Hash)]
#[repr(u8)]
pub enum WalkReason {
    /// The parent or the depth of a level is unfit. Level 0: there are more levels than the table has room for, which only
    /// [`raw::walk`] can be told.
    LevelsUnfit = 20,
    /// The output has fewer numbers than there are levels.
    OutputTooShort = 21,
}

impl WalkReason {
    /// The reasons in the order of their numbers.
    pub const ALL: [WalkReason; 2] = [WalkReason::LevelsUnfit, WalkReason::OutputTooShort];

    /// The answer's number, 20 or 21.
    pub const fn number(self) -> u8 {
        self as u8
    }
}

impl fmt::Display for WalkRefusal {
    fn fmt(&self, out: &mut fmt::Formatter<'_>) -> fmt::Result {
        write!(out, "refused {} level {}", self.reason.number(), self.level)
    }
}

impl Error for WalkRefusal {}

/// Lists the levels under their parents: each level without a parent in file order, and behind it its children, each
/// followed by its own. Every level comes once, and children of one parent are in file order. Gives the part of the output
/// that holds the numbers of the levels, from 1; every other number of it keeps what it held.
///
/// The levels are those of a reading, or any others that are fit: a parent of 0 goes with depth 1, any other is an earlier
/// level whose depth is one less, and no depth exceeds 4. Segment and code are not looked at. A refusal names the first
/// level that is unfit, and leaves the output as it was.
///
/// Levels that stand in the order of the outline, which is that X12 gives HLs, take time in proportion to their
/// number; others the square of it at worst.
///
/// ```
/// use stormhlaw::{walk, How, Separators, Tables, WalkReason};
///
/// let report = b"ST*842*0001~BNR*11*NR7*20240301~HL*A**RP~HL*B**RP~HL*C*A*I~SE*6*0001~";
/// let mut tables = Tables::for_input(report);
/// tables.read(report, Separators::STANDARD, How::new()).unwrap();
///
/// let mut output = [0; 10];
/// assert_eq!(walk(tables.levels(), &mut output)?, [1, 3, 2]);
///
/// let refusal = walk(tables.levels(), &mut output[..2]).unwrap_err();
/// assert_eq!((refusal.reason, refusal.level), (WalkReason::OutputTooShort, 0));
/// # Ok::<(), stormhlaw::WalkRefusal>(())
/// ```
pub fn walk<'a>(levels: &[Level], output: &'a mut [u64]) -> Result<&'a [u64], WalkRefusal> {
    let count = told(raw::walk(raw::numbers_of_levels(levels), levels.len() as u64, output))?;
    Ok(&output[..count])
}

/// The answer that two numbers tell of. The library answers 0, 20 and 21, and no number exceeds the count.
fn told([number, level]: [u64; 2]) -> Result<usize, WalkRefusal> {
    let level = level as usize;
    if number == 0 {
        return Ok(level);
    }
    let found = WalkReason::ALL.into_iter().find(|reason| u64::from(reason.number()) == number);
    let reason = found.expect("the library gives an answer that the header names");
    Err(WalkRefusal { reason, level })
}
