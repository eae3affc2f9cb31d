//! A reader of X12 842 nonconformance reports, written from the rules of document 01 and of document
//! 02, Items 1, 2, 3, 5, 6, 8 and 9, alone, to compare another reader with: the same answers, the same tables,
//! the same output, the same places, the same numbers, the same order of levels.
//!
//! `read` is made for speed: one pass, no allocation. `read_hashed` is the same with a hash of the levels.
//! `plain::read_plain` says the same in the plainest way, from the words of the paper, and the tests hold the
//! two together.

mod answer;
mod attached;
mod cut;
mod elements;
pub mod generator;
mod hashed;
mod levels;
mod line_ends;
pub mod listing;
mod lookup;
mod number;
pub mod outline;
pub mod plain;
mod profile;
mod read;
pub mod reports;
mod rewrite;
pub mod rows;
mod separators;
mod types;
pub mod vectors;
mod walk;

pub use answer::Answer;
pub use hashed::read_hashed;
pub use levels::{CODES, LEVEL_NUMBERS, SEGMENT_NUMBERS};
pub use line_ends::LineEnds;
pub use lookup::lookup_span;
pub use number::{number, Number};
pub use profile::Profile;
pub use read::{read, LONGEST};
pub use rewrite::rewrite;
pub use separators::Separators;
pub use walk::{walk, WalkAnswer};
