//! The records of the two lent tables.

#![forbid(unsafe_code)]

use crate::lookup::Segment;
use crate::separators::Separators;

/// Where one segment of a report stands, which it is, and where it belongs.
#[repr(C)]
#[derive(Clone, Copy, Debug, Default, PartialEq, Eq, Hash)]
pub struct SegmentRecord {
    /// The byte where it starts, behind the line end that was skipped before it.
    pub start: u64,
    /// How many bytes it has, without its terminator.
    pub length: u64,
    /// Its row in the table of 79, from 1.
    pub row: u64,
    /// The number of the level that it belongs to, from 1: that of the latest HL, or its own where it is an HL. 0 in the
    /// heading, before the first HL, and for the SE: see `level`.
    pub level: u64,
}

/// One level of a report.
#[repr(C)]
#[derive(Clone, Copy, Debug, Default, PartialEq, Eq, Hash)]
pub struct Level {
    /// The number of its HL segment, from 1.
    pub segment: u64,
    /// The number of its parent's level, from 1; 0 for none, as in every storage-quality reply.
    pub parent: u64,
    /// 1 without a parent, else the parent's plus one; at most 4.
    pub depth: u64,
    /// Its code, 1 to 6: see `code`.
    pub code: u64,
}

/// What a level stands for.
#[derive(Clone, Copy, Debug, PartialEq, Eq, Hash)]
pub enum Code {
    /// `RP`
    Report,
    /// `I`
    Item,
    /// `F`
    Component,
    /// `PC`
    ProductCharacteristic,
    /// `SN`
    SerialNumber,
    /// `RB`, in storage-quality replies alone.
    Response,
}

impl SegmentRecord {
    /// The bytes of the segment in the input that was read. None if the record is not of that input.
    pub fn bytes<'a>(&self, input: &'a [u8]) -> Option<&'a [u8]> {
        let start = usize::try_from(self.start).ok()?;
        let end = start.checked_add(usize::try_from(self.length).ok()?)?;
        input.get(start..end)
    }

    /// The segment in the input that was read, with the separators that it was read by. None if the record is not of that
    /// input.
    pub fn segment<'a>(&self, input: &'a [u8], separators: Separators) -> Option<Segment<'a>> {
        self.bytes(input).map(|bytes| Segment::new(bytes, separators))
    }

    /// The record of the level that it belongs to, where `levels` are those of the same reading. None in the heading, for
    /// the SE, or if there is no such record.
    pub fn level<'a>(&self, levels: &'a [Level]) -> Option<&'a Level> {
        numbered(levels, self.level)
    }
}

impl Level {
    /// The record of its HL, where `segments` are those of the same reading. None if there is no such record.
    pub fn hl<'a>(&self, segments: &'a [SegmentRecord]) -> Option<&'a SegmentRecord> {
        numbered(segments, self.segment)
    }

    /// What the level stands for. None in a record that no reading wrote.
    pub fn code(&self) -> Option<Code> {
        match self.code {
            1 => Some(Code::Report),
            2 => Some(Code::Item),
            3 => Some(Code::Component),
            4 => Some(Code::ProductCharacteristic),
            5 => Some(Code::SerialNumber),
            6 => Some(Code::Response),
            _ => None,
        }
    }
}

/// The record of that number, from 1.
pub(crate) fn numbered<Record>(records: &[Record], number: u64) -> Option<&Record> {
    records.get(usize::try_from(number).ok()?.checked_sub(1)?)
}
