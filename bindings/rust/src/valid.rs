//! Which records a refusal leaves.

#![forbid(unsafe_code)]

use crate::answer::{Accepted, Reason, Refusal};
use crate::records::SegmentRecord;

/// The row of SE in the table of 79.
const SE: u64 = 79;

/// How many records at the start of each lent table are those of the reading.
#[derive(Clone, Copy, Debug, Default, PartialEq, Eq, Hash)]
pub struct Valid {
    /// How many of the segment table.
    pub segments: usize,
    /// How many of the level table.
    pub levels: usize,
}

impl Refusal {
    /// How many records are valid, where `segments` is the segment table that was lent to the call: none after answers 1
    /// and 2, those before the refused segment after 3 to 17 and 24, all up to the SE after 18 and 19, which a rewriting
    /// gives once the report is accepted. A table that no such call filled makes the counts wrong, and nothing else.
    pub fn valid(&self, segments: &[SegmentRecord]) -> Valid {
        let count = match self.reason {
            Reason::SeparatorsUnfit | Reason::InputTooLong => 0,
            Reason::DataEqualsSeparator | Reason::OutputTooShort => up_to_the_end(segments),
            _ => self.segment.saturating_sub(1).min(segments.len()),
        };
        Valid { segments: count, levels: levels_of(&segments[..count]) }
    }
}

impl From<Accepted> for Valid {
    fn from(accepted: Accepted) -> Valid {
        Valid { segments: accepted.segments, levels: accepted.levels }
    }
}

/// How many records there are up to the SE, with its own; 0 where there is no SE.
fn up_to_the_end(segments: &[SegmentRecord]) -> usize {
    segments.iter().position(|segment| segment.row == SE).map_or(0, |before| before + 1)
}

/// How many levels these segments make: levels are numbered in order, so the last segment that belongs to one tells. No
/// more than there are segments, whatever the records hold.
fn levels_of(segments: &[SegmentRecord]) -> usize {
    let last = segments.iter().rev().find(|segment| segment.level != 0);
    last.map_or(0, |segment| segment.level.min(segments.len() as u64) as usize)
}
