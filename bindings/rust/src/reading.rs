//! Reading one transaction.

#![forbid(unsafe_code)]

use crate::answer::{told, Accepted, Refusal};
use crate::how::How;
use crate::raw;
use crate::records::{Level, SegmentRecord};
use crate::separators::Separators;

/// The most bytes an input may have.
pub const LONGEST: usize = 1_048_576;

/// Reads one transaction from the start of the input. Room is as many records as are lent. A refusal at segment k
/// leaves the records of segments 1 to k-1, as an accepted reading would, and [`Refusal::valid`] counts them; every other
/// record keeps what it held.
///
/// ```
/// use stormhlaw::{read, How, Level, SegmentRecord, Separators};
///
/// let report = b"ST*842*0001~BNR*11*NR7*20240301~HL*1**RP*1~HL*2*1*I*0~NCD*1~NCA**R1~SE*7*0001~";
/// let mut segments = [SegmentRecord::default(); 100];
/// let mut levels = [Level::default(); 20];
/// let accepted = read(report, Separators::STANDARD, How::new(), &mut segments, &mut levels)?;
/// assert_eq!((accepted.segments, accepted.levels, accepted.bytes), (7, 2, 78));
/// # Ok::<(), stormhlaw::Refusal>(())
/// ```
pub fn read(
    input: &[u8],
    separators: Separators,
    how: How,
    segments: &mut [SegmentRecord],
    levels: &mut [Level],
) -> Result<Accepted, Refusal> {
    let (segments, levels) = (raw::segment_numbers(segments), raw::level_numbers(levels));
    told(raw::read(input, separators, how.flags(), segments, levels))
}
