//! Looking up the elements of a segment and their components. Nothing is refused.

#![forbid(unsafe_code)]

use crate::raw;
use crate::separators::Separators;
use std::ops::Range;

/// The bytes of one segment, without its terminator, and the separators that it is cut by.
///
/// Its elements are numbered from 1, and number 0 is the tag. The components of each, of the tag too, are numbered from
/// 1, and 0 is the whole element. Every number has an answer: a component past the last is the empty part at its
/// element's end, and an element past the last the empty part at the segment's end.
///
/// Of a BIN element 1 is the count and element 2 all the bytes that it counts, where the count ends exactly with the
/// segment, as it does in every accepted report. The tag, the count and these bytes are one component each, whatever
/// bytes they hold. Any other segment is cut at every separator, whatever it begins with.
///
/// ```
/// use stormhlaw::{Segment, Separators};
///
/// let nca = Segment::new(b"NCA**R1**2.50*EA:2:10", Separators::STANDARD);
/// assert_eq!((nca.tag(), nca.element(2), nca.element(5)), (&b"NCA"[..], &b"R1"[..], &b"EA:2:10"[..]));
/// assert_eq!((nca.component(5, 1), nca.component(5, 3)), (&b"EA"[..], &b"10"[..]));
/// assert_eq!((nca.component(5, 0), nca.component(4, 1)), (nca.element(5), nca.element(4)));
/// assert_eq!((nca.span(2, 1), nca.span(2, 2), nca.span(6, 0)), (5..7, 7..7, 21..21));
///
/// let bin = Segment::new(b"BIN*3*:*~", Separators::STANDARD);
/// assert_eq!((bin.component(2, 1), bin.component(2, 2)), (&b":*~"[..], &b""[..]));
/// ```
#[derive(Clone, Copy, Debug, PartialEq, Eq, Hash)]
pub struct Segment<'a> {
    bytes: &'a [u8],
    separators: Separators,
}

impl<'a> Segment<'a> {
    /// The segment of these bytes, which are given without their terminator. Any byte may separate; the terminator is not
    /// looked at.
    pub const fn new(bytes: &'a [u8], separators: Separators) -> Segment<'a> {
        Segment { bytes, separators }
    }

    /// All its bytes.
    pub const fn bytes(self) -> &'a [u8] {
        self.bytes
    }

    /// What it is cut by.
    pub const fn separators(self) -> Separators {
        self.separators
    }

    /// The tag, which is element 0.
    pub fn tag(self) -> &'a [u8] {
        self.element(0)
    }

    /// The element of that number.
    pub fn element(self, number: usize) -> &'a [u8] {
        self.component(number, 0)
    }

    /// The component of that number, `part`, of the element `number`.
    pub fn component(self, number: usize, part: usize) -> &'a [u8] {
        &self.bytes[self.span(number, part)]
    }

    /// Where [`Segment::component`] finds that part in the bytes.
    ///
    /// The last element is the first that ends where the segment ends, and the last component the first that ends where
    /// its element ends.
    pub fn span(self, number: usize, part: usize) -> Range<usize> {
        let Separators { element, component, .. } = self.separators;
        let [start, length] = raw::lookup(self.bytes, element, component, number as u64, part as u64);
        // Both lie within the bytes.
        start as usize..(start + length) as usize
    }
}
