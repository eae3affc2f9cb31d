//! Line ends behind segments, and damage to them (document 02, Item 3).

use super::Random;
use crate::Separators;
use std::slice::from_ref;

/// Line ends that are skipped whole where no byte of them is a separator.
const WHOLE: [&[u8]; 4] = [b"\r\n", b"\n", b"\r", b""];
/// Line ends of which a byte is left over.
const LEFT_OVER: [&[u8]; 6] = [b"\n\r", b"\r\r\n", b"\n\n", b"\r\r", b"\r\n\r\n", b"\r\n\n"];
/// Line ends of both kinds, most of them whole.
const MIXED: [&[u8]; 8] = [b"\r\n", b"\n", b"\r", b"", b"\r\n", b"\n", b"\r\r\n", b"\n\r"];

/// So many reports of a hundred have line ends.
const IN_LINES: usize = 30;

/// What stands behind the terminator of each segment.
pub struct Lines {
    ends: Vec<&'static [u8]>,
}

/// The line ends of a report: none, always the same, or several.
fn several(random: &mut Random) -> &'static [&'static [u8]] {
    if !random.chance(IN_LINES) {
        return &[b""];
    }
    match random.below(10) {
        0..=3 => &WHOLE[..1],
        4 | 5 => &WHOLE[1..2],
        6 => &WHOLE[2..3],
        7 => &WHOLE,
        8 => &MIXED,
        _ => from_ref(random.pick(&LEFT_OVER)),
    }
}

impl Lines {
    /// Line ends for so many segments.
    pub fn new(random: &mut Random, segments: usize) -> Lines {
        let several = several(random);
        Lines { ends: (0..segments).map(|_| *random.pick(several)).collect() }
    }

    /// What stands behind the terminator of the segment at this place, from 0.
    pub fn behind(&self, at: usize) -> &[u8] {
        self.ends[at]
    }

    /// Those between two segments: behind SE nothing is looked at.
    fn between(&self) -> &[&'static [u8]] {
        self.ends.split_last().map_or(&[], |(_, between)| between)
    }

    /// No line end stands between two segments.
    pub fn none(&self) -> bool {
        self.between().iter().all(|end| end.is_empty())
    }

    /// All that stands between segments is skipped by the default.
    pub fn skipped(&self, separators: Separators) -> bool {
        let skipped = |end: &[u8]| WHOLE.contains(&end) && !end.iter().any(|byte| separators.holds(*byte));
        self.between().iter().all(|end| skipped(end))
    }
}

/// A line end comes, goes, is doubled or moves: one of its bytes, or both.
pub fn damage(random: &mut Random, input: &mut Vec<u8>, separators: Separators) {
    let there: Vec<usize> = (0..input.len()).filter(|at| b"\r\n".contains(&input[*at])).collect();
    if there.is_empty() || random.chance(25) {
        let several = if random.chance(70) { &WHOLE[..3] } else { &LEFT_OVER };
        let end = *random.pick(several);
        return insert(random, input, separators, end);
    }
    let from = *random.pick(&there);
    let pair = input[from..].starts_with(b"\r\n") && random.chance(50);
    let to = from + if pair { 2 } else { 1 };
    match random.below(3) {
        0 => drop(input.drain(from..to)),
        1 => {
            let end = input[from..to].to_vec();
            input.splice(to..to, end);
        }
        _ => {
            let end: Vec<u8> = input.drain(from..to).collect();
            insert(random, input, separators, &end);
        }
    }
}

fn insert(random: &mut Random, input: &mut Vec<u8>, separators: Separators, end: &[u8]) {
    let at = place(random, input, separators);
    input.splice(at..at, end.iter().copied());
}

/// A place for a line end: mostly behind a terminator, else before one, at the start, at the end, or any.
fn place(random: &mut Random, input: &[u8], separators: Separators) -> usize {
    let terminators: Vec<usize> = (0..input.len()).filter(|at| input[*at] == separators.terminator).collect();
    match random.below(8) {
        0 => 0,
        1 => random.below(input.len() + 1),
        _ if terminators.is_empty() => input.len(),
        2 => *random.pick(&terminators),
        _ => *random.pick(&terminators) + 1,
    }
}
