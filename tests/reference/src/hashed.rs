//! The same reading with a hash, for speed beside the library where there are many levels: a level is found at once,
//! however many stand before it. The hash allocates.

use crate::answer::Answer;
use crate::levels::{Earlier, Names, Search};
use crate::line_ends::LineEnds;
use crate::profile::Profile;
use crate::read::read_by;
use crate::separators::Separators;
use std::collections::HashMap;

/// Reads as `read` does, to the same answer and the same tables.
pub fn read_hashed(
    input: &[u8],
    separators: Separators,
    line_ends: LineEnds,
    profile: Profile,
    segments: &mut [u64],
    levels: &mut [u64],
) -> Answer {
    read_by(Hashed::default(), input, separators, line_ends, profile, segments, levels)
}

/// The names in a hash.
#[derive(Default)]
struct Hashed<'a> {
    /// The level number of each HL01.
    numbers: HashMap<&'a [u8], u64>,
    /// Whether each level has a child.
    has_child: Vec<bool>,
}

impl<'a> Names<'a> for Hashed<'a> {
    #[inline]
    fn search(&self, _: &Earlier, own: &[u8], parent: Option<&[u8]>) -> Search {
        let parent = parent.and_then(|parent| self.numbers.get(parent)).copied().unwrap_or(0);
        Search {
            used: self.numbers.contains_key(own),
            parent,
            has_child: parent != 0 && self.has_child[parent as usize - 1],
        }
    }

    #[inline]
    fn add(&mut self, own: &'a [u8], parent: u64) {
        self.has_child.push(false);
        self.numbers.insert(own, self.has_child.len() as u64);
        if parent != 0 {
            self.has_child[parent as usize - 1] = true;
        }
    }
}
