//! The levels of document 01, and of document 02, Item 9: answers 12 to 15 at an HL.

use crate::answer::Fault;
use crate::cut::Cut;
use crate::profile::Profile;

/// The six codes; the level table holds their place here, from 1. Each profile has some of them.
pub const CODES: [&str; 6] = ["RP", "I", "F", "PC", "SN", "RB"];

/// The numbers of the codes.
const RP: u64 = 1;
const I: u64 = 2;
const F: u64 = 3;
const PC: u64 = 4;
const SN: u64 = 5;
const RB: u64 = 6;

/// How many numbers the level table has for each level: its segment, its parent's level number, its depth, its
/// code.
pub const LEVEL_NUMBERS: usize = 4;
/// How many numbers the segment table has for each segment: where it starts, its length without terminator,
/// its row, the level it belongs to.
pub const SEGMENT_NUMBERS: usize = 4;

/// The number of a code, 0 for one that is unknown in the profile.
#[inline]
fn code_number(text: &[u8], profile: Profile) -> u64 {
    match (text, profile) {
        (b"RP", _) => RP,
        (b"I", _) => I,
        (b"F", Profile::Report) => F,
        (b"PC", Profile::Report) => PC,
        (b"SN", Profile::Report) => SN,
        (b"RB", Profile::Reply) => RB,
        _ => 0,
    }
}

/// Whether a level of this code may stand without a parent. Every one of a reply may.
#[inline]
fn stands_alone(code: u64) -> bool {
    matches!(code, RP | I | RB)
}

/// RP-I, I-F, I-PC, F-PC, I-SN, F-SN.
#[inline]
fn permitted(parent: u64, child: u64) -> bool {
    matches!((parent, child), (RP, I) | (I, F) | (I, PC) | (F, PC) | (I, SN) | (F, SN))
}

/// A level that stands: what the table will hold of it, and what it does to the marks.
#[derive(Clone, Copy, Debug)]
pub struct Level {
    /// The parent's level number, 0 for none.
    pub parent: u64,
    /// 1 without a parent, else the parent's plus one. The pairs let it be no more than 4.
    pub depth: u64,
    /// The code, 1 to 6.
    pub code: u64,
    /// Marked `1`, so that a child must come.
    pub waits: bool,
    /// The first child of a parent marked `1`.
    pub fills: bool,
}

/// The levels accepted so far: the input and the filled parts of both tables.
pub struct Earlier<'a> {
    /// The whole input.
    pub input: &'a [u8],
    /// The element separator.
    pub element: u8,
    /// The profile.
    pub profile: Profile,
    /// The records of the segments accepted so far.
    pub segments: &'a [u64],
    /// The records of the levels accepted so far.
    pub levels: &'a [u64],
}

/// An HL01 to look for: its bytes and the separator that follows them, so that length and text are
/// compared at once. The first eight bytes are one number, the next eight another; short names
/// differ in the first.
#[derive(Clone, Copy)]
struct Name {
    text: [u64; 2],
    mask: [u64; 2],
}

impl Name {
    /// At most twelve bytes and the separator.
    #[inline]
    fn new(text: &[u8], element: u8) -> Name {
        let mut bytes = [0; 16];
        for (to, from) in bytes.iter_mut().zip(text) {
            *to = *from;
        }
        let length = text.len().min(12);
        bytes[length] = element;
        Name { text: halves(&bytes), mask: halves(&(u128::MAX >> (8 * (15 - length))).to_le_bytes()) }
    }

    #[inline(always)]
    fn is(self, other: [u64; 2]) -> bool {
        (other[0] ^ self.text[0]) & self.mask[0] == 0 && (other[1] ^ self.text[1]) & self.mask[1] == 0
    }
}

/// Sixteen bytes as two numbers.
#[inline(always)]
fn halves(bytes: &[u8; 16]) -> [u64; 2] {
    let both = u128::from_le_bytes(*bytes);
    [both as u64, (both >> 64) as u64]
}

/// What the search among the earlier levels found.
pub struct Search {
    /// The new HL01 stands already.
    pub used: bool,
    /// The level number of the parent, 0 if none was found.
    pub parent: u64,
    /// The parent has a child already.
    pub has_child: bool,
}

/// The names so far: how a level is found by its HL01.
pub trait Names<'a> {
    /// Looks for a new HL01 and for the parent that HL02 names, and for a child it has already.
    fn search(&self, earlier: &Earlier, own: &[u8], parent: Option<&[u8]>) -> Search;

    /// Takes in a level that is accepted: its HL01 and its parent's level number.
    fn add(&mut self, own: &'a [u8], parent: u64);
}

/// The names as they stand in the input: all earlier levels are gone through.
pub struct InPlace;

impl Names<'_> for InPlace {
    #[inline]
    fn search(&self, earlier: &Earlier, own: &[u8], parent: Option<&[u8]>) -> Search {
        let name = |text| Name::new(text, earlier.element);
        earlier.search(name(own), parent.map(name))
    }

    #[inline]
    fn add(&mut self, _: &[u8], _: u64) {}
}

impl Earlier<'_> {
    /// The sixteen bytes from a place on; what lies past the input's end is 0.
    #[inline(always)]
    fn sixteen(&self, at: usize) -> [u64; 2] {
        match self.input.get(at..).and_then(|rest| rest.first_chunk::<16>()) {
            Some(bytes) => halves(bytes),
            None => self.fewer_than_sixteen(at),
        }
    }

    #[cold]
    fn fewer_than_sixteen(&self, at: usize) -> [u64; 2] {
        let mut bytes = [0; 16];
        for (to, from) in bytes.iter_mut().zip(self.input.get(at..).unwrap_or(&[])) {
            *to = *from;
        }
        halves(&bytes)
    }

    /// Where the record of the segment with this number stands.
    #[inline(always)]
    fn record(number: u64) -> usize {
        (number as usize - 1) * SEGMENT_NUMBERS
    }

    /// Goes once through the earlier levels: compares the new HL01 with every earlier one, looks
    /// for the parent that HL02 names, and for a child it has already.
    #[inline]
    fn search(&self, own: Name, parent: Option<Name>) -> Search {
        let mut found = Search { used: false, parent: 0, has_child: false };
        for (at, level) in self.levels.chunks_exact(LEVEL_NUMBERS).enumerate() {
            // HL01 stands behind the tag and one separator.
            let name = self.sixteen(self.segments[Self::record(level[0])] as usize + 3);
            if own.is(name) {
                found.used = true;
                return found;
            }
            if found.parent != 0 {
                found.has_child |= level[1] == found.parent;
            } else if matches!(parent, Some(parent) if parent.is(name)) {
                found.parent = at as u64 + 1;
            }
        }
        found
    }

    /// The mark of an earlier level: `0`, `1`, or another byte where HL04 is absent. An accepted HL
    /// ends with its mark or, without one, with the last letter of its code.
    #[inline]
    fn mark(&self, segment: u64) -> u8 {
        let at = Self::record(segment);
        self.input[(self.segments[at] + self.segments[at + 1]) as usize - 1]
    }

    /// Tests an HL in the order 12, 13, 14, 15. One of a reply has neither HL02 nor HL04, and comes to stand
    /// without a parent and without a mark.
    #[inline]
    pub(crate) fn level<'a>(&self, cut: &Cut, names: &impl Names<'a>) -> Result<Level, Fault> {
        let named = cut.has(2).then(|| cut.element(self.input, 2));
        let code = code_number(cut.element(self.input, 3), self.profile);
        let found = names.search(self, cut.element(self.input, 1), named);
        if found.used {
            return Err(Fault::new(12, 1));
        }
        if named.is_some() && found.parent == 0 {
            return Err(Fault::new(13, 2));
        }
        if code == 0 || (named.is_none() && !stands_alone(code)) {
            return Err(Fault::new(14, 3));
        }
        let (depth, fills) = self.under(&found, code)?;
        let mark = if cut.has(4) { self.input[cut.end - 1] } else { 0 };
        let fit = match mark {
            0 | b'0' => true,
            b'1' => code != PC && code != SN,
            _ => false,
        };
        if !fit {
            return Err(Fault::new(15, 4));
        }
        Ok(Level { parent: found.parent, depth, code, waits: mark == b'1', fills })
    }

    /// Tests the pair and the parent's mark; gives the depth, and whether the level is the first
    /// child of a parent marked `1`.
    #[inline]
    fn under(&self, found: &Search, code: u64) -> Result<(u64, bool), Fault> {
        if found.parent == 0 {
            return Ok((1, false));
        }
        let at = (found.parent as usize - 1) * LEVEL_NUMBERS;
        let parent = &self.levels[at..at + LEVEL_NUMBERS];
        if !permitted(parent[3], code) {
            return Err(Fault::new(14, 2));
        }
        match self.mark(parent[0]) {
            b'0' => Err(Fault::new(15, 2)),
            mark => Ok((parent[2] + 1, mark == b'1' && !found.has_child)),
        }
    }
}

#[cfg(test)]
mod tests {
    use super::*;

    #[test]
    fn codes_are_numbered_in_the_papers_order() {
        for profile in Profile::BOTH {
            for (at, code) in CODES.iter().enumerate() {
                let number = if profile.codes().contains(code) { at as u64 + 1 } else { 0 };
                assert_eq!(code_number(code.as_bytes(), profile), number, "{code} {profile:?}");
            }
            for code in ["", "R", "P", "II", "S", "rp", "0", "FF", "CP", "BR", "rb", "B", "RBB"] {
                assert_eq!(code_number(code.as_bytes(), profile), 0);
            }
        }
    }

    #[test]
    fn every_level_of_a_reply_stands_alone() {
        let alone = |code: &&&str| stands_alone(code_number(code.as_bytes(), Profile::Reply));
        assert_eq!(Profile::Reply.codes().iter().filter(alone).count(), 3);
    }

    #[test]
    fn six_pairs_are_permitted() {
        let mut pairs = Vec::new();
        for parent in 1..=6 {
            for child in 1..=6 {
                if permitted(parent, child) {
                    pairs.push((CODES[parent as usize - 1], CODES[child as usize - 1]));
                }
            }
        }
        assert_eq!(pairs, [("RP", "I"), ("I", "F"), ("I", "PC"), ("I", "SN"), ("F", "PC"), ("F", "SN")]);
    }

    #[test]
    fn a_name_is_compared_whole() {
        let other = |text: &[u8]| {
            let mut bytes = [b'x'; 16];
            bytes[..text.len()].copy_from_slice(text);
            halves(&bytes)
        };
        let name = Name::new(b"12", b'*');
        assert!(name.is(other(b"12*")));
        assert!(!name.is(other(b"1*")));
        assert!(!name.is(other(b"123*")));
        assert!(!name.is(other(b"13*")));
        let long = Name::new(b"ABCDEFGHIJKL", b'*');
        assert!(long.is(other(b"ABCDEFGHIJKL*")));
        assert!(!long.is(other(b"ABCDEFGHIJKLM")));
        assert!(!long.is(other(b"ABCDEFGHIJK*")));
    }
}
