//! Generated reports in the form of the vectors, for a comparison over many seeds.

use super::case::{Case, How, Told};
use super::{Group, FILE_BYTES, OUTPUT_BYTES, TABLE_NUMBERS};
use crate::{generator, Profile};

/// Longer inputs are left out.
const INPUT_BYTES: usize = 12_000;

/// Two readings, by the default and strictly, and a rewriting for each of the seeds, in as many files as
/// it takes. Tables and outputs are cut down to what a case may have.
pub fn generated(first: u64, count: u64) -> Vec<Group> {
    let mut groups = Vec::new();
    let mut cases = Vec::new();
    let mut size = 0;
    for seed in first..first + count {
        let report = generator::report(seed);
        if report.input.len() > INPUT_BYTES {
            continue;
        }
        let added = 3 * (16 + report.input.len());
        if size + added >= FILE_BYTES {
            groups.push(Group { name: name(groups.len()), cases: std::mem::take(&mut cases) });
            size = 0;
        }
        size += added;
        cases.extend(all(report));
    }
    if !cases.is_empty() {
        groups.push(Group { name: name(groups.len()), cases });
    }
    groups
}

/// The readings and the rewriting of a report.
fn all(report: generator::Case) -> [Told; 3] {
    let generator::Case { input, separators, profile, new, .. } = report;
    let rooms = (report.segment_numbers.min(TABLE_NUMBERS), report.level_numbers.min(TABLE_NUMBERS));
    let output = report.output_length.min(OUTPUT_BYTES);
    let read = Told::from(Case::read(input.clone(), separators, rooms));
    // Bits that have no name, and that nothing looks at; then the profile.
    let unnamed = report.seed as u8 & !3;
    let how = unnamed | if profile == Profile::Reply { How::REPLY.0 } else { 0 };
    [
        read.clone().by(How(how)),
        read.by(How(how | 1)),
        Case::Rewrite { input, separators, profile, new, rooms, output }.into(),
    ]
}

/// A name of letters; later ones come later in the alphabet.
fn name(number: usize) -> String {
    let letter = |place: u32| char::from(b'a' + (number / 26usize.pow(place) % 26) as u8);
    format!("generated{}{}{}{}", letter(3), letter(2), letter(1), letter(0))
}
