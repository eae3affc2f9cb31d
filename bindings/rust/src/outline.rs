//! The outline of a report: its levels under their parents, each with the segments that belong to it.

#![forbid(unsafe_code)]

use crate::records::{numbered, Code, Level, SegmentRecord};
use crate::separators::Separators;
use crate::walking::{walk, WalkRefusal};
use std::borrow::Cow;
use std::iter::FusedIterator;
use std::ops::Range;

/// The levels of a reading in the order that [`walk`] gives: see [`Tables::outline`](crate::Tables::outline) and
/// [`outline`].
#[derive(Clone, Debug)]
pub struct Outline<'a> {
    /// The numbers of the levels.
    order: Cow<'a, [u64]>,
    /// How many of them were given.
    given: usize,
    segments: &'a [SegmentRecord],
    levels: &'a [Level],
}

/// One level of an outline.
#[derive(Clone, Copy, Debug, PartialEq, Eq, Hash)]
#[non_exhaustive]
pub struct OutlineLevel<'a> {
    /// Its number, from 1.
    pub number: usize,
    /// Its record in the level table.
    pub record: &'a Level,
    /// The records of the segments that belong to it, which stand together: its HL, and all behind it up to the next HL or
    /// the SE.
    pub segments: &'a [SegmentRecord],
}

/// The outline of a reading that left these records, in numbers that the caller lends, one at least for each level. Nothing
/// is allocated. It is refused as [`walk`] is; the levels that a reading left are always fit.
///
/// ```
/// use stormhlaw::{outline, read, How, Level, SegmentRecord, Separators};
///
/// let report = b"ST*842*0001~BNR*11*NR7*20240301~HL*A**RP~HL*B**RP~NCD*1~HL*C*A*I~SE*7*0001~";
/// let mut segments = [SegmentRecord::default(); 100];
/// let mut levels = [Level::default(); 20];
/// let accepted = read(report, Separators::STANDARD, How::new(), &mut segments, &mut levels).unwrap();
///
/// let (segments, levels) = (&segments[..accepted.segments], &levels[..accepted.levels]);
/// let mut output = [0; 20];
/// let ranges: Vec<_> = outline(segments, levels, &mut output)?.map(|level| level.range()).collect();
/// assert_eq!(ranges, [3..4, 6..7, 4..6]);
/// # Ok::<(), stormhlaw::WalkRefusal>(())
/// ```
pub fn outline<'a>(
    segments: &'a [SegmentRecord],
    levels: &'a [Level],
    output: &'a mut [u64],
) -> Result<Outline<'a>, WalkRefusal> {
    let order = Cow::Borrowed(walk(levels, output)?);
    Ok(Outline { order, given: 0, segments, levels })
}

/// The outline of a reading that left these records, in memory of its own.
pub(crate) fn owned<'a>(
    segments: &'a [SegmentRecord],
    levels: &'a [Level],
) -> Result<Outline<'a>, WalkRefusal> {
    let mut order = vec![0; levels.len()];
    walk(levels, &mut order)?;
    Ok(Outline { order: Cow::Owned(order), given: 0, segments, levels })
}

impl<'a> OutlineLevel<'a> {
    /// How deep it is: 1 without a parent, at most 4.
    pub fn depth(&self) -> usize {
        self.record.depth as usize
    }

    /// What it stands for. None in a record that no reading wrote.
    pub fn code(&self) -> Option<Code> {
        self.record.code()
    }

    /// The text of its HL01 in the input that was read, with the separators that it was read by. None if the records are not
    /// of that input.
    pub fn name<'b>(&self, input: &'b [u8], separators: Separators) -> Option<&'b [u8]> {
        Some(self.segments.first()?.segment(input, separators)?.element(1))
    }

    /// The number of its HL among the segments, from 1.
    pub fn segment(&self) -> usize {
        self.record.segment as usize
    }

    /// The byte where its HL starts. None if segments and levels are not of one reading.
    pub fn byte(&self) -> Option<usize> {
        self.segments.first().map(|hl| hl.start as usize)
    }

    /// The numbers of the segments that belong to it, from 1: from its HL up to the next HL or the SE.
    pub fn range(&self) -> Range<usize> {
        self.segment()..self.segment().saturating_add(self.segments.len())
    }
}

impl<'a> Iterator for Outline<'a> {
    type Item = OutlineLevel<'a>;

    fn next(&mut self) -> Option<OutlineLevel<'a>> {
        let number = *self.order.get(self.given)?;
        let record = numbered(self.levels, number)?;
        self.given += 1;
        Some(OutlineLevel {
            number: number as usize,
            record,
            segments: belonging(self.segments, record, number),
        })
    }

    fn size_hint(&self) -> (usize, Option<usize>) {
        let left = self.order.len() - self.given;
        (left, Some(left))
    }
}

impl ExactSizeIterator for Outline<'_> {}

impl FusedIterator for Outline<'_> {}

/// The records of the segments that belong to the level of that number, from its HL on.
fn belonging<'a>(segments: &'a [SegmentRecord], record: &Level, number: u64) -> &'a [SegmentRecord] {
    let before = usize::try_from(record.segment).ok().and_then(|segment| segment.checked_sub(1));
    let behind = before.and_then(|before| segments.get(before..)).unwrap_or(&[]);
    let count = behind.iter().take_while(|segment| segment.level == number).count();
    &behind[..count]
}
