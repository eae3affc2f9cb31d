//! Rewriting a transaction with other separators.

#![forbid(unsafe_code)]

use crate::answer::{told, Accepted, Refusal};
use crate::how::How;
use crate::raw;
use crate::records::{Level, SegmentRecord};
use crate::separators::Separators;

/// Reads the input and writes it with the new separators, as many bytes as the transaction takes. The tables are left as
/// [`read`](crate::read) leaves them, and untouched where either set is unfit. On any refusal the output keeps its bytes.
/// The bytes of BIN02 are copied as they are.
///
/// The reading is strict, whatever `how` says of line ends: a report that has them between its segments is refused with
/// [`Reason::ByteUnfit`](crate::Reason::ByteUnfit). It is by the profile that `how` names.
///
/// ```
/// use stormhlaw::{rewrite, How, Level, SegmentRecord, Separators};
///
/// let report = b"ST*842*0001~BNR*11*NR7*20240301~HL*1**I~SE*4*0001~";
/// let new = Separators { element: b'|', component: b'^', terminator: b'\'' };
/// let mut segments = [SegmentRecord::default(); 100];
/// let mut levels = [Level::default(); 20];
/// let mut output = [0; 50];
/// let (old, how) = (Separators::STANDARD, How::strict());
/// let accepted = rewrite(report, old, how, new, &mut segments, &mut levels, &mut output)?;
/// assert_eq!(&output[..accepted.bytes], b"ST|842|0001'BNR|11|NR7|20240301'HL|1||I'SE|4|0001'");
/// # Ok::<(), stormhlaw::Refusal>(())
/// ```
pub fn rewrite(
    input: &[u8],
    separators: Separators,
    how: How,
    new: Separators,
    segments: &mut [SegmentRecord],
    levels: &mut [Level],
    output: &mut [u8],
) -> Result<Accepted, Refusal> {
    let (segments, levels) = (raw::segment_numbers(segments), raw::level_numbers(levels));
    told(raw::rewrite(input, separators, how.flags(), new, segments, levels, output))
}
