//! Line ends between segments (document 02, Item 3): behind a terminator and before the next segment, at
//! most one CR and then at most one LF are skipped, each unless it is a separator.

use crate::separators::Separators;

const CR: u8 = b'\r';
const LF: u8 = b'\n';

/// What becomes of line ends between segments.
#[derive(Clone, Copy, Debug, Default, PartialEq, Eq)]
pub enum LineEnds {
    /// They are skipped.
    #[default]
    Skipped,
    /// They belong to the segment that they stand before.
    Strict,
}

impl LineEnds {
    /// Both, the default first.
    pub const BOTH: [LineEnds; 2] = [LineEnds::Skipped, LineEnds::Strict];
}

/// Which bytes of a line end a reading skips.
#[derive(Clone, Copy)]
pub(crate) struct Skipping {
    cr: bool,
    lf: bool,
}

impl Skipping {
    /// What is skipped by this choice under these separators.
    pub fn new(line_ends: LineEnds, separators: Separators) -> Skipping {
        let skips = |byte: u8| line_ends == LineEnds::Skipped && !separators.holds(byte);
        Skipping { cr: skips(CR), lf: skips(LF) }
    }

    /// Where the next segment starts, `at` being the byte behind a terminator. Where no line end stands,
    /// one comparison tells.
    #[inline(always)]
    pub fn start(self, input: &[u8], at: usize) -> usize {
        match input.get(at) {
            Some(&byte) if byte > CR => at,
            Some(&CR) if self.cr => at + 1 + usize::from(self.lf && input.get(at + 1) == Some(&LF)),
            Some(&LF) if self.lf => at + 1,
            _ => at,
        }
    }
}
