//! How a report is read.

#![forbid(unsafe_code)]

use crate::raw;

/// What becomes of line ends between segments.
#[derive(Clone, Copy, Debug, Default, PartialEq, Eq, Hash)]
pub enum LineEnds {
    /// Behind a terminator and before the next segment at most one CR and then at most one LF are skipped, each unless
    /// it is itself a separator. What is skipped belongs to no segment; it counts among the bytes that the transaction
    /// takes.
    #[default]
    Skipped,
    /// Nothing is skipped: a line end belongs to the segment that it stands before, which is refused.
    Strict,
}

/// What a report may hold.
#[derive(Clone, Copy, Debug, Default, PartialEq, Eq, Hash)]
pub enum Profile {
    /// A nonconformance report: all 79 rows, and levels with the codes RP, I, F, PC and SN under their parents.
    #[default]
    Nonconformance,
    /// A storage-quality reply: rows 1, 2, 12, 17 to 19, 23 to 26, 30, 31, 46 to 49, 51, 56, 64, 71 and 79 alone, any other
    /// being refused with [`Reason::RowNotInProfile`](crate::Reason::RowNotInProfile); HL02 and HL04 absent; HL03 one of I,
    /// RB and RP. No level has a parent, and all have depth 1.
    StorageReply,
}

/// How a report is read: by default line ends between segments are skipped, and it is a nonconformance report.
/// [`rewrite`](crate::rewrite) reads strictly, whatever it is told of line ends, and by the profile that it is told.
///
/// ```
/// use stormhlaw::{How, Separators, Tables};
///
/// let report = b"ST*842*0001~\r\nBNR*11*NR7*20240301~\r\nHL*1**I~\r\nSE*4*0001~\r\n";
/// let mut tables = Tables::for_input(report);
/// let accepted = tables.read(report, Separators::STANDARD, How::new())?;
/// assert_eq!((tables.segments()[1].start, accepted.bytes), (14, 56));
///
/// let refusal = tables.read(report, Separators::STANDARD, How::strict()).unwrap_err();
/// assert_eq!(refusal.to_string(), "refused 5 segment 2 byte 12 element 0");
/// # Ok::<(), stormhlaw::Refusal>(())
/// ```
///
/// A storage-quality reply is read as one:
///
/// ```
/// use stormhlaw::{Code, How, Profile, Reason, Separators, Tables};
///
/// let reply = b"ST*842*0001~BNR*11*NR7*20240301~HL*1**RP~HL*2**RB~SE*5*0001~";
/// let mut tables = Tables::for_input(reply);
/// tables.read(reply, Separators::STANDARD, How::reply())?;
/// assert_eq!(tables.levels()[1].code(), Some(Code::Response));
///
/// let strictly = How::strict().with_profile(Profile::StorageReply);
/// assert!(tables.read(reply, Separators::STANDARD, strictly).is_ok());
///
/// let refusal = tables.read(reply, Separators::STANDARD, How::new()).unwrap_err();
/// assert_eq!((refusal.reason, refusal.segment), (Reason::LevelNotPermitted, 4));
/// # Ok::<(), stormhlaw::Refusal>(())
/// ```
#[derive(Clone, Copy, Debug, Default, PartialEq, Eq, Hash)]
#[non_exhaustive]
pub struct How {
    /// What becomes of line ends between segments.
    pub line_ends: LineEnds,
    /// What the report may hold.
    pub profile: Profile,
}

impl How {
    /// The default: line ends between segments are skipped, and it is a nonconformance report.
    pub const fn new() -> How {
        How { line_ends: LineEnds::Skipped, profile: Profile::Nonconformance }
    }

    /// Nothing is skipped.
    pub const fn strict() -> How {
        How { line_ends: LineEnds::Strict, ..How::new() }
    }

    /// A storage-quality reply.
    pub const fn reply() -> How {
        How::new().with_profile(Profile::StorageReply)
    }

    /// The same by that profile.
    pub const fn with_profile(self, profile: Profile) -> How {
        How { profile, ..self }
    }

    /// What the library is told: the sum of the flags that `include/stormhlaw.h` names.
    pub const fn flags(self) -> u64 {
        let line_ends = match self.line_ends {
            LineEnds::Skipped => 0,
            LineEnds::Strict => raw::STRICT,
        };
        let profile = match self.profile {
            Profile::Nonconformance => 0,
            Profile::StorageReply => raw::REPLY,
        };
        line_ends + profile
    }
}
