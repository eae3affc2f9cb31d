//! What a reading answers.

#![forbid(unsafe_code)]

use std::error::Error;
use std::fmt;

/// Answer 0.
#[derive(Clone, Copy, Debug, PartialEq, Eq, Hash)]
pub struct Accepted {
    /// How many segments there are, ST and SE counted.
    pub segments: usize,
    /// How many levels there are.
    pub levels: usize,
    /// How many bytes the transaction takes, with the terminator of its SE and the line ends between its segments.
    pub bytes: usize,
}

/// Any other answer.
#[derive(Clone, Copy, Debug, PartialEq, Eq, Hash)]
pub struct Refusal {
    /// Which rule is broken.
    pub reason: Reason,
    /// The number of the segment that breaks it, from 1; 0 where no segment is meant.
    pub segment: usize,
    /// The byte where that segment starts, behind the line end that was skipped before it.
    pub byte: usize,
    /// The number of the element; 0 is the tag, or no element in particular.
    pub element: usize,
}

/// Why a report is refused. `number` gives the answer's number.
#[derive(Clone, Copy, Debug, PartialEq, Eq, Hash)]
#[repr(u8)]
pub enum Reason {
    /// A separator is unfit, or two are the same. Element 1: the new set of a rewriting.
    SeparatorsUnfit = 1,
    /// The input has more than 1,048,576 bytes.
    InputTooLong = 2,
    /// No terminator from this byte on, or the input ends inside a BIN.
    NoTerminator = 3,
    /// The tag is none of the 34.
    TagUnknown = 4,
    /// A byte that is neither data nor a separator, such as a line end that is not skipped. BIN02 may hold any byte.
    ByteUnfit = 5,
    /// No element, or an empty last element, or an element that ends with an empty component.
    EmptyAtTheEnd = 6,
    /// No row of the table fits here.
    NoRowFits = 7,
    /// A mandatory element is missing.
    ElementMissing = 8,
    /// Too many elements or components. In a storage-quality reply HL02 and HL04 are too many.
    TooMany = 9,
    /// Type or length does not fit, or ST01 is not `842`; what a quantity may be says [`number`](crate::number). Of a BIN,
    /// element 1: BIN01 is no count, or no element separator follows it; element 2: no terminator stands where it is due.
    ValueUnfit = 10,
    /// A note on the segment's elements is broken.
    NoteBroken = 11,
    /// HL01 was used before.
    LevelUsedBefore = 12,
    /// HL02 names no earlier level.
    ParentUnknown = 13,
    /// Element 3: no such code in this profile, or the level needs a parent. Element 2: it may not hang under that parent.
    LevelNotPermitted = 14,
    /// Element 2: the parent is marked 0. Element 4: the own mark does not fit. Element 0: a mark 1 has no child.
    MarkUnfit = 15,
    /// Element 1: SE01 is not the number of segments. Element 2: SE02 is not ST02.
    ClosingWrong = 16,
    /// The rules hold, and a table has no room for this segment's records.
    NoRoom = 17,
    /// Rewriting: a data byte equals a new separator. The bytes of BIN02 may equal one.
    DataEqualsSeparator = 18,
    /// Rewriting: the output is shorter than the bytes used.
    OutputTooShort = 19,
    /// The segment has a row of the table, and it is no row of a storage-quality reply.
    RowNotInProfile = 24,
}

impl Reason {
    /// The reasons in the order of their numbers.
    pub const ALL: [Reason; 20] = [
        Reason::SeparatorsUnfit,
        Reason::InputTooLong,
        Reason::NoTerminator,
        Reason::TagUnknown,
        Reason::ByteUnfit,
        Reason::EmptyAtTheEnd,
        Reason::NoRowFits,
        Reason::ElementMissing,
        Reason::TooMany,
        Reason::ValueUnfit,
        Reason::NoteBroken,
        Reason::LevelUsedBefore,
        Reason::ParentUnknown,
        Reason::LevelNotPermitted,
        Reason::MarkUnfit,
        Reason::ClosingWrong,
        Reason::NoRoom,
        Reason::DataEqualsSeparator,
        Reason::OutputTooShort,
        Reason::RowNotInProfile,
    ];

    /// The answer's number, 1 to 19 or 24.
    pub const fn number(self) -> u8 {
        self as u8
    }
}

impl fmt::Display for Refusal {
    fn fmt(&self, out: &mut fmt::Formatter<'_>) -> fmt::Result {
        let Refusal { reason, segment, byte, element } = self;
        write!(out, "refused {} segment {segment} byte {byte} element {element}", reason.number())
    }
}

impl Error for Refusal {}

/// The answer that four numbers tell of. The library answers 0 to 19 and 24, and no count and no place exceeds the limit of
/// the input.
pub(crate) fn told(numbers: [u64; 4]) -> Result<Accepted, Refusal> {
    let [number, first, second, third] = numbers.map(|number| number as usize);
    match number {
        0 => Ok(Accepted { segments: first, levels: second, bytes: third }),
        _ => Err(Refusal { reason: numbered(number), segment: first, byte: second, element: third }),
    }
}

/// The reason with that number.
fn numbered(number: usize) -> Reason {
    let found = Reason::ALL.into_iter().find(|reason| usize::from(reason.number()) == number);
    found.expect("the library gives an answer that the header names")
}
