//! Rewriting a transaction with other separators (document 01, the text after the table of answers;
//! document 02, Items 1, 3 and 9).

use crate::answer::Answer;
use crate::attached;
use crate::levels::SEGMENT_NUMBERS;
use crate::line_ends::LineEnds;
use crate::profile::Profile;
use crate::read::read;
use crate::separators::Separators;
use std::iter::once;
use std::ops::Range;

/// The row of BIN; there is no other.
const BIN_ROW: u64 = 55;

/// Tests both sets (1, the old one first), reads strictly and by the profile, then 18: a data byte equals a new separator; then
/// 19: the output is shorter than the bytes used. The tables are left as reading alone leaves them,
/// and untouched at 1. On any refusal the output keeps its bytes; success writes exactly the used
/// length and gives the reading's numbers. The bytes of BIN02 are copied and not looked at.
pub fn rewrite(
    input: &[u8],
    separators: Separators,
    profile: Profile,
    new: Separators,
    segments: &mut [u64],
    levels: &mut [u64],
    output: &mut [u8],
) -> Answer {
    if !separators.fit() {
        return Answer::bare(1, 0);
    }
    if !new.fit() {
        return Answer::bare(1, 1);
    }
    let answer = read(input, separators, LineEnds::Strict, profile, segments, levels);
    let Answer::Accepted { segments: count, bytes, .. } = answer else {
        return answer;
    };
    let records = &segments[..count * SEGMENT_NUMBERS];
    let used = Used { bytes: &input[..bytes], records, separators };
    if let Some(collision) = used.collision(new) {
        return collision;
    }
    let Some(output) = output.get_mut(..bytes) else {
        return Answer::bare(19, 0);
    };
    used.write(new, output);
    answer
}

/// An accepted transaction: the bytes used, the records of its segments, and its separators.
struct Used<'a> {
    bytes: &'a [u8],
    records: &'a [u64],
    separators: Separators,
}

impl Used<'_> {
    /// The bytes in stretches: bytes that are looked at, then those of a BIN02. Behind the last BIN all
    /// are looked at.
    fn stretches(&self) -> impl Iterator<Item = (Range<usize>, Range<usize>)> + '_ {
        let bins = self.records.chunks_exact(SEGMENT_NUMBERS).filter(|record| record[2] == BIN_ROW);
        let contents = bins.filter_map(|record| {
            let (start, end) = (record[0] as usize, (record[0] + record[1]) as usize);
            let content = attached::content(&self.bytes[start..end], self.separators.element)?;
            Some(start + content..end)
        });
        let end = self.bytes.len();
        let mut from = 0;
        contents.chain(once(end..end)).map(move |copied| {
            let looked_at = from..copied.start;
            from = copied.end;
            (looked_at, copied)
        })
    }

    /// Answer 18 at the first data byte that equals a new separator, if there is one.
    fn collision(&self, new: Separators) -> Option<Answer> {
        let collides = |byte: &u8| new.holds(*byte) && !self.separators.holds(*byte);
        self.stretches().find_map(|(looked_at, _)| {
            let at = self.bytes[looked_at.clone()].iter().position(collides)?;
            self.collision_at(looked_at.start + at)
        })
    }

    /// Answer 18 with the segment and element in which the byte at this place stands.
    fn collision_at(&self, at: usize) -> Option<Answer> {
        let starts = self.records.chunks_exact(SEGMENT_NUMBERS).map(|record| record[0] as usize);
        let (segment, byte) = (1..).zip(starts).take_while(|(_, start)| *start <= at).last()?;
        let before = self.bytes[byte..at].iter();
        let element = before.filter(|byte| **byte == self.separators.element).count();
        Some(Answer::Refused { number: 18, segment, byte, element })
    }

    /// Writes the bytes with the new separators; those of BIN02 are copied.
    fn write(&self, new: Separators, output: &mut [u8]) {
        let changed = changes(self.separators, new);
        for (looked_at, copied) in self.stretches() {
            let bytes = &self.bytes[looked_at.clone()];
            for (to, from) in output[looked_at].iter_mut().zip(bytes) {
                *to = changed[usize::from(*from)];
            }
            output[copied.clone()].copy_from_slice(&self.bytes[copied]);
        }
    }
}

/// What each byte becomes.
fn changes(old: Separators, new: Separators) -> [u8; 256] {
    let mut changed = [0; 256];
    for (byte, to) in (0..=255).zip(changed.iter_mut()) {
        *to = byte;
    }
    changed[usize::from(old.element)] = new.element;
    changed[usize::from(old.component)] = new.component;
    changed[usize::from(old.terminator)] = new.terminator;
    changed
}
