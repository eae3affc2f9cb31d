//! Where a segment ends, and its pieces.

use super::elements::Piece;
use super::Fault;
use crate::Separators;

/// A segment cut into pieces: the tag, then the elements.
pub struct Segment {
    pub start: usize,
    pub length: usize,
    pub pieces: Vec<Piece>,
    /// The first piece with a byte neither data nor separator.
    pub bad: Option<usize>,
}

impl Segment {
    /// The segment that the rest of the input begins with. One that begins with BIN and the element
    /// separator is ended by its count, any other by the next terminator.
    pub fn first(rest: &[u8], start: usize, separators: Separators) -> Result<Segment, Fault> {
        if rest.starts_with(&[b'B', b'I', b'N', separators.element]) {
            return Segment::counted(rest, start, separators);
        }
        let end = rest.iter().position(|byte| *byte == separators.terminator);
        let bytes = &rest[..end.ok_or((3, 0))?];
        Ok(Segment::cut(bytes, start, separators))
    }

    fn cut(bytes: &[u8], start: usize, separators: Separators) -> Segment {
        let neither = |byte: &u8| !(32..=126).contains(byte) && *byte != separators.component;
        let texts: Vec<&[u8]> = bytes.split(|byte| *byte == separators.element).collect();
        Segment {
            start,
            length: bytes.len(),
            bad: texts.iter().position(|text| text.iter().any(neither)),
            pieces: texts.iter().map(|text| Piece::cut(text, separators.component)).collect(),
        }
    }

    /// Document 02, Item 1: BIN01 is 1 to 15 digits giving the length, at least 1, then the element
    /// separator, then exactly that many bytes of any kind, then the terminator.
    fn counted(rest: &[u8], start: usize, separators: Separators) -> Result<Segment, Fault> {
        let behind_tag = &rest[b"BIN*".len()..];
        let characters = behind_tag.iter().map(|byte| char::from(*byte));
        let digits: String = characters.take_while(|character| "0123456789".contains(*character)).collect();
        if digits.len() > 15 || digits == "000000000000000" {
            return Err((10, 1));
        }
        let behind_digits = &behind_tag[digits.len()..];
        let (separator, behind_separator) = behind_digits.split_first().ok_or((3, 0))?;
        let count: usize = digits.parse().unwrap_or(0);
        if *separator != separators.element || count < 1 {
            return Err((10, 1));
        }
        let due = behind_separator.get(count).ok_or((3, 0))?;
        if *due != separators.terminator {
            return Err((10, 2));
        }
        let texts = [b"BIN", digits.as_bytes(), &behind_separator[..count]];
        Ok(Segment {
            start,
            length: b"BIN*".len() + digits.len() + 1 + count,
            bad: None,
            pieces: texts.map(Piece::whole).into(),
        })
    }

    pub fn tag(&self) -> &[u8] {
        &self.pieces[0].text
    }

    /// The text of an element; empty where the segment does not have it.
    pub fn text(&self, number: usize) -> &[u8] {
        self.pieces.get(number).map_or(&[], |piece| &piece.text)
    }
}
