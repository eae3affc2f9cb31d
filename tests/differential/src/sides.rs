//! The two sides: the library through its C interface, and the independent reader.

use crate::outcome::{Outcome, Sizes};
use reference::{lookup_span, Answer, LineEnds, Profile, Separators};
use stormhlaw::{raw, How};

/// The set as the library takes it.
pub fn library_set(set: Separators) -> stormhlaw::Separators {
    stormhlaw::Separators { element: set.element, component: set.component, terminator: set.terminator }
}

/// What the library is told of line ends and of the profile, with these bits besides, to which it must not look.
pub fn library_how(line_ends: LineEnds, profile: Profile, unnamed: u64) -> u64 {
    let how = match line_ends {
        LineEnds::Skipped => How::new(),
        LineEnds::Strict => How::strict(),
    };
    let profile = match profile {
        Profile::Report => stormhlaw::Profile::Nonconformance,
        Profile::Reply => stormhlaw::Profile::StorageReply,
    };
    how.with_profile(profile).flags() | unnamed
}

/// The library's reading.
pub fn library_read(input: &[u8], set: Separators, how: u64, sizes: Sizes) -> Outcome {
    let mut outcome = Outcome::new(sizes);
    outcome.answer = raw::read(input, library_set(set), how, outcome.segments.part(), outcome.levels.part());
    outcome
}

/// The independent reader, or its other way to find levels.
type Reader = fn(&[u8], Separators, LineEnds, Profile, &mut [u64], &mut [u64]) -> Answer;

/// The reading of one of them.
fn read_by(
    reader: Reader,
    input: &[u8],
    set: Separators,
    (line_ends, profile): (LineEnds, Profile),
    sizes: Sizes,
) -> Outcome {
    let mut outcome = Outcome::new(sizes);
    let (segments, levels) = (outcome.segments.part(), outcome.levels.part());
    outcome.answer = reader(input, set, line_ends, profile, segments, levels).numbers();
    outcome
}

/// The independent reading.
pub fn reference_read(input: &[u8], set: Separators, how: (LineEnds, Profile), sizes: Sizes) -> Outcome {
    read_by(reference::read, input, set, how, sizes)
}

/// The independent reading with a hash of the levels.
pub fn hashed_read(input: &[u8], set: Separators, how: (LineEnds, Profile), sizes: Sizes) -> Outcome {
    read_by(reference::read_hashed, input, set, how, sizes)
}

/// Start and length by the library.
pub fn library_lookup(segment: &[u8], element: u8, component: u8, number: u64, part: u64) -> (u64, u64) {
    raw::lookup(segment, element, component, number, part).into()
}

/// Start and length by the independent reader.
pub fn reference_lookup(segment: &[u8], element: u8, component: u8, number: u64, part: u64) -> (u64, u64) {
    let (start, length) = lookup_span(segment, element, component, number as usize, part as usize);
    (start as u64, length as u64)
}
