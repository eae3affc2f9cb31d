//! BIN, which is ended by its count (document 02, Item 1): BIN01 is 1 to 15 digits giving a length of
//! at least 1, then comes the element separator, then that many bytes of any kind, BIN02, then the
//! terminator.

use crate::answer::Fault;
use crate::separators::Separators;

/// The most digits that BIN01 may have.
const DIGITS: usize = 15;

/// How many bytes stand before BIN01: the tag and the element separator.
const LEAD: usize = 4;

/// A broken length or its separator.
const BROKEN_LENGTH: Fault = Fault::new(10, 1);
/// Another byte where the terminator is due.
const BROKEN_END: Fault = Fault::new(10, 2);
/// The bytes end inside a BIN that is not yet broken.
const NOT_ENDED: Fault = Fault::new(3, 0);

/// Where BIN02 of a whole BIN starts and where it ends, counted from the segment's start.
pub struct Content {
    pub start: usize,
    pub end: usize,
}

/// Whether a segment that starts with these bytes is ended by a count.
#[inline(always)]
pub fn begins(rest: &[u8], element: u8) -> bool {
    rest.first_chunk() == Some(&[b'B', b'I', b'N', element])
}

/// Where BIN02 stands in the BIN that these bytes begin with, or what breaks it. The count is read
/// digit by digit, and no byte of BIN02 is looked at.
#[inline]
pub(crate) fn whole(rest: &[u8], separators: Separators) -> Result<Content, Fault> {
    let (count, start) = length(rest, separators.element)?;
    match rest.get(start + count) {
        Some(byte) if *byte == separators.terminator => Ok(Content { start, end: start + count }),
        Some(_) => Err(BROKEN_END),
        None => Err(NOT_ENDED),
    }
}

/// Where BIN02 starts in a segment, if the segment is a BIN whose count ends exactly with its bytes.
#[inline]
pub fn content(segment: &[u8], element: u8) -> Option<usize> {
    if !begins(segment, element) {
        return None;
    }
    let (count, start) = length(segment, element).ok()?;
    (segment.len() - start == count).then_some(start)
}

/// The length that BIN01 gives, and where the bytes behind its separator start. The separator is
/// looked for before a digit, since a lookup may be asked to cut at digits.
#[inline]
fn length(rest: &[u8], element: u8) -> Result<(usize, usize), Fault> {
    let mut count = 0;
    for (at, byte) in rest.iter().enumerate().skip(LEAD) {
        if *byte == element {
            return if count > 0 { Ok((count, at + 1)) } else { Err(BROKEN_LENGTH) };
        }
        if !byte.is_ascii_digit() || at == LEAD + DIGITS {
            return Err(BROKEN_LENGTH);
        }
        count = count * 10 + usize::from(byte - b'0');
        if at + 1 == LEAD + DIGITS && count == 0 {
            // No digit may follow, so that the length stays 0.
            return Err(BROKEN_LENGTH);
        }
    }
    Err(NOT_ENDED)
}
