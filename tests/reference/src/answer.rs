//! What a reading or a rewriting answers (document 01, "Answers in the order they are tested").

/// The answer of a reading or of a rewriting.
#[derive(Clone, Copy, Debug, PartialEq, Eq)]
pub enum Answer {
    /// Answer 0.
    Accepted {
        /// How many segments, ST and SE counted.
        segments: usize,
        /// How many levels.
        levels: usize,
        /// How many bytes, up to and with the terminator of SE.
        bytes: usize,
    },
    /// Answers 1 to 19 and 24.
    Refused {
        /// The answer's number.
        number: usize,
        /// The segment's number, from 1; 0 where no segment is meant.
        segment: usize,
        /// The byte where that segment starts.
        byte: usize,
        /// The element's number, the tag being 0.
        element: usize,
    },
}

impl Answer {
    /// The four numbers: 0, segments, levels, bytes; or number, segment, byte, element.
    pub fn numbers(&self) -> [u64; 4] {
        match *self {
            Answer::Accepted { segments, levels, bytes } => [0, segments as u64, levels as u64, bytes as u64],
            Answer::Refused { number, segment, byte, element } => {
                [number as u64, segment as u64, byte as u64, element as u64]
            }
        }
    }

    /// A refusal that points at no segment (answers 1, 2 and 19).
    pub(crate) const fn bare(number: usize, element: usize) -> Answer {
        Answer::Refused { number, segment: 0, byte: 0, element }
    }
}

/// What is wrong with one segment: the answer's number and the element.
#[derive(Clone, Copy, Debug, PartialEq, Eq)]
pub(crate) struct Fault {
    pub number: usize,
    pub element: usize,
}

impl Fault {
    pub const fn new(number: usize, element: usize) -> Fault {
        Fault { number, element }
    }
}
