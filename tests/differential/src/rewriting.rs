//! Rewriting by both sides, where the library has it.

use crate::lookups;
use crate::outcome::{Outcome, Sizes};
use crate::sides::{library_how, library_set};
use crate::tally::{every_how, Tally};
use reference::generator::Case;
use reference::{Profile, Separators};
use stormhlaw::raw;

/// The library's rewriting.
fn library(input: &[u8], [set, new]: [Separators; 2], how: u64, sizes: Sizes) -> Outcome {
    let mut outcome = Outcome::new(sizes);
    let (segments, levels) = (outcome.segments.part(), outcome.levels.part());
    let (set, new, output) = (library_set(set), library_set(new), outcome.output.part());
    outcome.answer = raw::rewrite(input, set, how, new, segments, levels, output);
    outcome
}

/// The independent rewriting.
fn independent(input: &[u8], [set, new]: [Separators; 2], profile: Profile, sizes: Sizes) -> Outcome {
    let mut outcome = Outcome::new(sizes);
    let (segments, levels) = (outcome.segments.part(), outcome.levels.part());
    let output = outcome.output.part();
    outcome.answer = reference::rewrite(input, set, profile, new, segments, levels, output).numbers();
    outcome
}

/// Compares the case's rewriting by both profiles, with both choices about line ends and with these bits besides: it is strict,
/// whatever it is told of line ends. Where it succeeds, lookups in the output are held to those in the input.
pub fn compare(tally: &mut Tally, name: &str, case: &Case, unnamed: u64) {
    let sets = [case.separators, case.new];
    let sizes =
        Sizes { segments: case.segment_numbers, levels: case.level_numbers, output: case.output_length };
    for (line_ends, profile) in every_how() {
        let how = library_how(line_ends, profile, unnamed);
        let mut one = library(&case.input, sets, how, sizes);
        tally.rewritten(profile, one.answer[0]);
        if let Some(difference) = one.difference(&independent(&case.input, sets, profile, sizes)) {
            tally.differs(name, &difference, &case.input, &format!("{sets:?}, how {how:#x}, {sizes:?}"));
        } else if one.answer[0] == 0 {
            lookups::kept(tally, name, case, &mut one);
        }
    }
}
