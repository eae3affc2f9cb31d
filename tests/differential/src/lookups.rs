//! Lookups by both sides: in stretches and segments of generated reports and in BINs; and by the library alone, before and
//! behind a rewriting.

use crate::outcome::Outcome;
use crate::tally::Tally;
use reference::generator::{counted_segment, Case, Random};
use reference::SEGMENT_NUMBERS;

/// Stretches and segments are taken from so many of a report's first bytes, BINs from so many.
const REPORT_BYTES: usize = 2000;
const BIN_BYTES: usize = 20_000;

/// So many pairs of numbers are asked for in each stretch and segment.
const PAIRS: usize = 5;
/// One seed in so many has every pair of several numbers asked for.
const EVERY_PAIR_ONE_IN: u64 = 64;

/// Every number of an element and of a component below these is asked for before and behind a rewriting.
const KEPT: (u64, u64) = (6, 4);

/// Lookups in the case's report, in a BIN made for it, and in a BIN that the report has.
pub fn generated(tally: &mut Tally, name: &str, case: &Case) {
    in_report(tally, name, case);
    in_bin(tally, name, case);
    in_bin_of_report(tally, name, case);
}

/// A number to ask for: mostly a small one, now and then any or the greatest.
fn asked(random: &mut Random) -> u64 {
    match random.below(16) {
        0 => random.number(),
        1 => u64::MAX,
        2..=4 => random.below(40) as u64,
        _ => random.below(4) as u64,
    }
}

/// In a stretch of the case's input and in a whole segment of it, by its separators in either order, by one of them as both, or
/// by any bytes.
fn in_report(tally: &mut Tally, name: &str, case: &Case) {
    let mut random = Random::new(!case.seed);
    let input = &case.input[..case.input.len().min(REPORT_BYTES)];
    let from = random.below(input.len() + 1);
    let stretch = &input[from..from + random.below((input.len() - from).min(90) + 1)];
    let segment = segment_around(input, from, case.separators.terminator);
    let set = [case.separators.element, case.separators.component];
    let any = [random.below(256) as u8, random.below(256) as u8];
    let [element, component] = *random.pick(&[set, set, set, [set[1], set[0]], [set[0]; 2], any]);
    for bytes in [stretch, segment] {
        for _ in 0..PAIRS {
            tally.look_up(name, bytes, element, component, asked(&mut random), asked(&mut random));
        }
    }
    if case.seed.is_multiple_of(EVERY_PAIR_ONE_IN) {
        let numbers = [0, 1, 2, random.number(), u64::MAX];
        for (number, part) in numbers.iter().flat_map(|number| numbers.map(|part| (*number, part))) {
            for bytes in [stretch, segment, &[]] {
                tally.look_up(name, bytes, element, component, number, part);
            }
        }
    }
}

/// The bytes around a place, from behind the terminator before it up to the next.
fn segment_around(input: &[u8], place: usize, terminator: u8) -> &[u8] {
    let (before, behind) = input.split_at(place);
    let start = before.iter().rposition(|byte| *byte == terminator).map_or(0, |at| at + 1);
    let length = behind.iter().position(|byte| *byte == terminator).unwrap_or(behind.len());
    &input[start..place + length]
}

/// In a segment that begins with BIN, by the byte behind its tag and by any other.
fn in_bin(tally: &mut Tally, name: &str, case: &Case) {
    let mut random = Random::new(case.seed ^ 0xB1);
    let (segment, element) = counted_segment(&mut random);
    let any = random.below(256) as u8;
    let component = *random.pick(&[b':', b':', element, b'I', b'1', any]);
    for number in 0..4 {
        for part in 0..4 {
            tally.look_up(name, &segment, element, component, number, part);
        }
    }
    tally.look_up(name, &segment, element, component, asked(&mut random), asked(&mut random));
    tally.look_up(name, &segment, any, element, asked(&mut random), asked(&mut random));
}

/// In the case's input from its first BIN on, up to places that the count may or may not end with.
fn in_bin_of_report(tally: &mut Tally, name: &str, case: &Case) {
    let mut random = Random::new(case.seed ^ 0xB2);
    let (element, component) = (case.separators.element, case.separators.component);
    let input = &case.input[..case.input.len().min(BIN_BYTES)];
    let Some(from) = input.windows(4).position(|bytes| bytes == [b'B', b'I', b'N', element]) else { return };
    let rest = &input[from..];
    let ends = (0..rest.len()).filter(|at| rest[*at] == case.separators.terminator).take(6);
    for end in ends.flat_map(|end| [end.saturating_sub(1), end, end + 1]) {
        let (number, part) = (1 + random.below(3) as u64, random.below(4) as u64);
        tally.look_up(name, &rest[..end], element, component, number, part);
    }
}

/// In two segments of a report that the library rewrote, a BIN among them where there is one: what is looked up stands in the
/// output where it stood in the input, and a component has the bytes that it had.
pub fn kept(tally: &mut Tally, name: &str, case: &Case, outcome: &mut Outcome) {
    let records = &outcome.segments.part().as_chunks::<SEGMENT_NUMBERS>().0[..outcome.answer[1] as usize];
    let bin = records.iter().find(|record| case.input[record[0] as usize..].starts_with(b"BIN"));
    let mut random = Random::new(case.seed ^ 0x08);
    let any = random.pick(records);
    let output = outcome.output.part();
    for [start, length, ..] in bin.into_iter().chain([any]) {
        let segment = *start as usize..(start + length) as usize;
        let segments = [&case.input[segment.clone()], &output[segment]];
        let few = (0..KEPT.0).flat_map(|number| (0..KEPT.1).map(move |part| (number, part)));
        let more = (0..PAIRS).map(|_| (asked(&mut random), asked(&mut random)));
        for (number, part) in few.chain(more) {
            tally.keep(name, segments, [case.separators, case.new], number, part);
        }
    }
}
