//! Cutting one segment into its tag and elements, in one pass over its bytes
//! (document 01, "Bytes, separators, segments"); a BIN by its count (document 02, Item 1).

use crate::answer::Fault;
use crate::attached;
use crate::separators::Separators;

/// A digit.
pub const DIGIT: u8 = 1;
/// A letter `A` to `Z`.
pub const CAPITAL: u8 = 2;
/// Any other data byte.
pub const OTHER: u8 = 4;
/// Neither data nor separator.
pub const BAD: u8 = 8;
/// The component separator.
pub const COMPONENT: u8 = 16;
/// The element separator.
pub const ELEMENT: u8 = 32;
/// The terminator.
pub const TERMINATOR: u8 = 64;

/// A set of separators, and the kind of every byte under it.
pub struct Kinds {
    separators: Separators,
    kinds: [u8; 256],
}

/// The kind of every byte before any separator is set apart.
static UNSEPARATED: [u8; 256] = unseparated();

const fn unseparated() -> [u8; 256] {
    let mut kinds = [BAD; 256];
    let mut byte = 32;
    while byte <= 126 {
        kinds[byte] = match byte as u8 {
            b'0'..=b'9' => DIGIT,
            b'A'..=b'Z' => CAPITAL,
            _ => OTHER,
        };
        byte += 1;
    }
    kinds
}

impl Kinds {
    /// The kinds under these separators.
    pub fn new(separators: Separators) -> Kinds {
        let mut kinds = UNSEPARATED;
        kinds[usize::from(separators.element)] = ELEMENT;
        kinds[usize::from(separators.component)] = COMPONENT;
        kinds[usize::from(separators.terminator)] = TERMINATOR;
        Kinds { separators, kinds }
    }

    #[inline(always)]
    fn of(&self, byte: u8) -> u8 {
        self.kinds[usize::from(byte)]
    }
}

/// The last place kept: the tag has 0, the 31 elements of LIN have 1 to 31, and all further pieces
/// share 32. A ruled segment with so many has too many and is refused before any of them is asked
/// for; a plain segment's are never asked for.
const LAST: usize = 32;

/// One segment cut into its pieces.
pub struct Cut {
    /// Where the segment starts.
    pub start: usize,
    /// Where its terminator stands.
    pub end: usize,
    /// How many elements it has.
    pub elements: usize,
    /// A bit for each of the first pieces that is not empty.
    pub present: u64,
    /// The first piece with a byte neither data nor separator.
    pub bad: Option<usize>,
    /// The first element that is last and empty, or whose last component is empty.
    pub hollow: Option<usize>,
    /// Where each piece ends.
    ends: [usize; LAST + 1],
    /// The kinds of bytes that each piece holds.
    kinds: [u8; LAST + 1],
}

impl Cut {
    /// A cut of nothing yet.
    pub fn new() -> Cut {
        Cut {
            start: 0,
            end: 0,
            elements: 0,
            present: 0,
            bad: None,
            hollow: None,
            ends: [0; LAST + 1],
            kinds: [0; LAST + 1],
        }
    }

    /// Cuts the segment that starts at `start`: a BIN by its count, any other at the next terminator.
    #[inline(always)]
    pub(crate) fn segment(&mut self, input: &[u8], start: usize, kinds: &Kinds) -> Result<(), Fault> {
        let rest = input.get(start..).unwrap_or(&[]);
        self.start = start;
        self.present = 0;
        self.bad = None;
        self.hollow = None;
        if attached::begins(rest, kinds.separators.element) {
            self.counted(rest, kinds.separators)
        } else if self.terminated(rest, kinds) {
            Ok(())
        } else {
            Err(Fault::new(3, 0))
        }
    }

    /// Notes the three pieces of a BIN. It is a plain segment, whose kinds of bytes are never asked for.
    /// Kept apart from the loop over the bytes of all other segments.
    #[inline(never)]
    fn counted(&mut self, rest: &[u8], separators: Separators) -> Result<(), Fault> {
        let content = attached::whole(rest, separators)?;
        let ends = [3, content.start - 1, content.end];
        self.ends[..3].copy_from_slice(&ends.map(|end| self.start + end));
        self.present = 0b111;
        self.elements = 2;
        self.end = self.start + content.end;
        Ok(())
    }

    /// Cuts at the next terminator. False if none comes.
    #[inline(always)]
    fn terminated(&mut self, rest: &[u8], kinds: &Kinds) -> bool {
        let start = self.start;
        let mut piece = 0;
        let mut began = 0;
        let mut held = 0;
        for (at, byte) in rest.iter().enumerate() {
            let kind = kinds.of(*byte);
            if kind < ELEMENT {
                held |= kind;
                continue;
            }
            let slot = piece.min(LAST);
            self.ends[slot] = start + at;
            self.kinds[slot] = held;
            self.present |= u64::from(at != began) << slot;
            if held & (BAD | COMPONENT) != 0 {
                self.look_closer(piece, held, kinds.of(rest[at - 1]));
            }
            if kind == TERMINATOR {
                if at == began && piece > 0 {
                    self.hollow.get_or_insert(piece);
                }
                self.elements = piece;
                self.end = start + at;
                return true;
            }
            piece += 1;
            began = at + 1;
            held = 0;
        }
        false
    }

    /// Notes a piece with a bad byte, and an element that ends with a component separator.
    fn look_closer(&mut self, piece: usize, held: u8, last: u8) {
        if held & BAD != 0 {
            self.bad.get_or_insert(piece);
        }
        if last == COMPONENT && piece > 0 {
            self.hollow.get_or_insert(piece);
        }
    }

    /// The bytes of the tag.
    #[inline]
    pub fn tag<'a>(&self, input: &'a [u8]) -> &'a [u8] {
        &input[self.start..self.ends[0]]
    }

    /// Where one of the elements 1 to 31 begins and ends. It must be one the segment has.
    #[inline]
    pub fn span(&self, element: usize) -> (usize, usize) {
        (self.ends[(element - 1).min(LAST)] + 1, self.ends[element.min(LAST)])
    }

    /// The bytes of one of the elements 1 to 31. It must be one the segment has.
    #[inline]
    pub fn element<'a>(&self, input: &'a [u8], element: usize) -> &'a [u8] {
        let (from, to) = self.span(element);
        &input[from..to]
    }

    /// The kinds of bytes one of the elements 1 to 31 holds. It must be one the segment has.
    #[inline]
    pub fn held(&self, element: usize) -> u8 {
        self.kinds[element.min(LAST)]
    }

    /// Whether one of the elements 1 to 31 is there and not empty.
    #[inline]
    pub fn has(&self, element: usize) -> bool {
        self.present >> element & 1 != 0
    }
}

#[cfg(test)]
mod tests {
    use super::*;

    fn cut(text: &[u8]) -> Result<Cut, Fault> {
        let mut cut = Cut::new();
        cut.segment(text, 0, &Kinds::new(Separators::STANDARD)).map(|()| cut)
    }

    fn cut_from(text: &[u8], start: usize) -> Cut {
        let mut cut = Cut::new();
        cut.segment(text, start, &Kinds::new(Separators::STANDARD)).unwrap();
        cut
    }

    #[test]
    fn pieces_are_where_they_are() {
        let text = b"HL*12**RP~";
        let cut = cut(text).unwrap();
        assert_eq!((cut.elements, cut.end, cut.bad, cut.hollow), (3, 9, None, None));
        assert_eq!(cut.tag(text), b"HL");
        assert_eq!(cut.element(text, 1), b"12");
        assert_eq!(cut.element(text, 2), b"");
        assert_eq!(cut.element(text, 3), b"RP");
        assert_eq!((cut.held(1), cut.held(2), cut.held(3)), (DIGIT, 0, CAPITAL));
        assert_eq!(cut.present, 0b1011);
        assert!(cut.has(3) && !cut.has(2) && !cut.has(4));
    }

    #[test]
    fn faults_are_noted_at_the_first_place() {
        assert_eq!(cut(b"HL*1").err(), Some(Fault::new(3, 0)));
        assert_eq!(cut(b"").err(), Some(Fault::new(3, 0)));
        assert_eq!(cut(b"HL*1*\n*\n~").unwrap().bad, Some(2));
        assert_eq!(cut(b"\x80L*1*\n~").unwrap().bad, Some(0));
        assert_eq!(cut(b"HL*1:*A:~").unwrap().hollow, Some(1));
        assert_eq!(cut(b"HL*1**~").unwrap().hollow, Some(3));
        assert_eq!(cut(b"HL*:1**A~").unwrap().hollow, None);
        assert_eq!(cut(b"HL:~").unwrap().hollow, None);
        assert_eq!(cut(b"~").unwrap().elements, 0);
    }

    #[test]
    fn many_elements_are_counted_and_the_first_ones_kept() {
        let mut text = b"REF".to_vec();
        for _ in 0..200 {
            text.extend_from_slice(b"*AB");
        }
        text.push(b'~');
        let cut = cut(&text).unwrap();
        assert_eq!(cut.elements, 200);
        assert_eq!(cut.element(&text, 31), b"AB");
    }
    #[test]
    fn a_bin_has_two_elements_whatever_its_bytes_are() {
        let text = b"EFI*1~BIN*007*~\0*:\xFF::~";
        let cut = cut_from(text, 6);
        assert_eq!((cut.start, cut.end, cut.elements, cut.bad, cut.hollow), (6, 21, 2, None, None));
        assert_eq!(cut.tag(text), b"BIN");
        assert_eq!(cut.element(text, 1), b"007");
        assert_eq!(cut.element(text, 2), b"~\0*:\xFF::");
        assert!(cut.has(1) && cut.has(2) && !cut.has(3));
    }

    #[test]
    fn a_bin_is_broken_at_the_first_byte_that_breaks_it() {
        assert_eq!(cut(b"BIN*").err(), Some(Fault::new(3, 0)));
        assert_eq!(cut(b"BIN**").err(), Some(Fault::new(10, 1)));
        assert_eq!(cut(b"BIN*2*A").err(), Some(Fault::new(3, 0)));
        assert_eq!(cut(b"BIN*2*A~").err(), Some(Fault::new(3, 0)));
        assert_eq!(cut(b"BIN*2*A~A").err(), Some(Fault::new(10, 2)));
        assert_eq!(cut(b"BIN~").unwrap().elements, 0);
    }
}
