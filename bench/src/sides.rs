//! The sides of a contest: the builds of the library, and the hand-written reader.

use reference::{LineEnds, Separators, LEVEL_NUMBERS, SEGMENT_NUMBERS};
use std::hint::black_box;
use stormhlaw::{raw, How, Profile, LONGEST};

/// The separators of every input, and those that it is rewritten to.
pub const OLD: stormhlaw::Separators = stormhlaw::Separators::STANDARD;
pub const NEW: stormhlaw::Separators =
    stormhlaw::Separators { element: b'|', component: b'^', terminator: b'\'' };

/// Room for every segment and every level that is timed, in numbers.
const SEGMENT_TABLE: usize = SEGMENT_NUMBERS * (LONGEST / 5);
const LEVEL_TABLE: usize = LEVEL_NUMBERS * 20_000;

/// What is lent to a call.
#[derive(PartialEq)]
pub struct Lent {
    pub segments: Vec<u64>,
    pub levels: Vec<u64>,
    pub output: Vec<u8>,
}

impl Lent {
    pub fn new() -> Lent {
        Lent { segments: vec![7; SEGMENT_TABLE], levels: vec![8; LEVEL_TABLE], output: vec![9; LONGEST] }
    }
}

/// A call: an input and how it is read, what is lent, and the four numbers of the answer.
pub type Call = fn(&[u8], How, &mut Lent) -> [u64; 4];

/// What one side calls.
pub struct Side {
    pub name: &'static str,
    pub read: Call,
    pub rewrite: Call,
}

/// The build that callers link, the native one where it is built, and the hand-written reader, always last.
pub fn sides() -> Vec<Side> {
    vec![
        Side { name: "callers", read: library_read, rewrite: library_rewrite },
        #[cfg(feature = "native")]
        Side { name: "native", read: crate::native::read, rewrite: crate::native::rewrite },
        Side { name: "by hand", read: read_by_hand, rewrite: rewrite_by_hand },
    ]
}

fn library_read(input: &[u8], how: How, lent: &mut Lent) -> [u64; 4] {
    raw::read(input, OLD, how.flags(), &mut lent.segments, &mut lent.levels)
}

fn library_rewrite(input: &[u8], how: How, lent: &mut Lent) -> [u64; 4] {
    raw::rewrite(input, OLD, how.flags(), NEW, &mut lent.segments, &mut lent.levels, &mut lent.output)
}

fn read_by_hand(input: &[u8], how: How, lent: &mut Lent) -> [u64; 4] {
    let line_ends = black_box(LineEnds::Skipped);
    reference::read(input, told(OLD), line_ends, named(how), &mut lent.segments, &mut lent.levels).numbers()
}

/// The hand-written reader with a hash of the levels: no side of the contests, but of the table of levels.
pub fn read_hashed(input: &[u8], how: How, lent: &mut Lent) -> [u64; 4] {
    let line_ends = black_box(LineEnds::Skipped);
    let Lent { segments, levels, .. } = lent;
    reference::read_hashed(input, told(OLD), line_ends, named(how), segments, levels).numbers()
}

fn rewrite_by_hand(input: &[u8], how: How, lent: &mut Lent) -> [u64; 4] {
    let Lent { segments, levels, output } = lent;
    reference::rewrite(input, told(OLD), named(how), told(NEW), segments, levels, output).numbers()
}

/// The profile as the hand-written reader takes it, known only when it is called.
fn named(how: How) -> reference::Profile {
    black_box(match how.profile {
        Profile::Nonconformance => reference::Profile::Report,
        Profile::StorageReply => reference::Profile::Reply,
    })
}

/// The set as the hand-written reader takes it, known only when it is called, as the library's is.
fn told(set: stormhlaw::Separators) -> Separators {
    black_box(Separators::new(set.element, set.component, set.terminator))
}
