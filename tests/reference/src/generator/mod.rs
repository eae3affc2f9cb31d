//! Reports made from a seed: valid ones of many shapes, and damaged ones, for a comparison of two
//! readers. The same seed always gives the same case.

mod attached;
mod damage;
mod draft;
mod lines;
mod numbers;
mod random;
mod tables;

pub use attached::counted_segment;
pub use numbers::number_text;
pub use random::Random;
pub use tables::{fit_levels, level_table, WalkCase};

use crate::{Profile, Separators, LEVEL_NUMBERS, LONGEST, SEGMENT_NUMBERS};
use draft::Draft;
use lines::Lines;

/// One case for a reader.
#[derive(Clone, Debug, PartialEq, Eq)]
pub struct Case {
    /// The seed it was made from.
    pub seed: u64,
    /// The lent bytes.
    pub input: Vec<u8>,
    /// The separators to read with.
    pub separators: Separators,
    /// The profile to read by.
    pub profile: Profile,
    /// The separators to rewrite with.
    pub new: Separators,
    /// How many numbers the segment table has.
    pub segment_numbers: usize,
    /// How many numbers the level table has.
    pub level_numbers: usize,
    /// How many bytes the output has.
    pub output_length: usize,
    /// Nothing was damaged and the room suffices: the report is to be accepted where line ends are skipped.
    pub valid: bool,
    /// The same, and no line end stands between two segments: it is to be accepted strictly too.
    pub strictly_valid: bool,
}

/// One seed in so many gives an input about as long as the limit.
const LONG_ONE_IN: u64 = 4096;

/// So many reports of a hundred are replies.
const REPLIES: usize = 35;
/// So many of a hundred are read by the profile that they are not made for.
const BY_THE_OTHER: usize = 6;

/// The case of a seed.
pub fn report(seed: u64) -> Case {
    let mut random = Random::new(seed);
    let separators = fit_set(&mut random);
    let profile = if random.chance(REPLIES) { Profile::Reply } else { Profile::Report };
    let mut draft = Draft::new(&mut random, separators, profile);
    let needed = draft.needed();
    let damages = number_of_damages(&mut random);
    // Most damage is done to segments and elements, some to bytes.
    let to_bytes = if random.chance(50) { random.below(damages + 1) } else { 0 };
    damage::segments(&mut random, &mut draft, damages - to_bytes);
    let lines = Lines::new(&mut random, draft.segments.len());
    let mut input = draft.bytes(&lines);
    let used = input.len();
    damage::bytes(&mut random, &mut input, separators, to_bytes);
    let line_damaged = random.chance(if lines.none() { 4 } else { 25 });
    if line_damaged {
        lines::damage(&mut random, &mut input, separators);
    }
    trail(&mut random, &mut input, separators);
    let mut valid = damages == 0 && !line_damaged && lines.skipped(separators);
    if seed % LONG_ONE_IN == LONG_ONE_IN - 1 {
        let length = LONGEST - 1 + random.below(3);
        input.resize(length, b'X');
        valid &= length <= LONGEST;
    }
    let read_with = if random.chance(2) { any_set(&mut random) } else { separators };
    let read_by = if random.chance(BY_THE_OTHER) { profile.other() } else { profile };
    let (segment_numbers, level_numbers) = rooms(&mut random, needed);
    valid &= read_with == separators
        && read_by == profile
        && segment_numbers / SEGMENT_NUMBERS >= needed.0
        && level_numbers / LEVEL_NUMBERS >= needed.1;
    Case {
        seed,
        separators: read_with,
        profile: read_by,
        new: new_set(&mut random, separators),
        segment_numbers,
        level_numbers,
        output_length: output_length(&mut random, used),
        input,
        valid,
        strictly_valid: valid && lines.none(),
    }
}

fn number_of_damages(random: &mut Random) -> usize {
    match random.below(20) {
        0..=6 => 0,
        7..=15 => 1,
        16..=18 => 2,
        _ => 3,
    }
}

/// Bytes after SE are not looked at, whatever they are.
fn trail(random: &mut Random, input: &mut Vec<u8>, separators: Separators) {
    if !random.chance(20) {
        return;
    }
    let again = input.clone();
    if random.chance(30) {
        input.extend(again);
    } else {
        for _ in 0..random.below(20) {
            let byte = damage::any_byte(random, separators);
            input.push(byte);
        }
    }
}

/// How many numbers both tables have: often more than enough, often near the need, sometimes none.
fn rooms(random: &mut Random, needed: (usize, usize)) -> (usize, usize) {
    (room(random, SEGMENT_NUMBERS * needed.0), room(random, LEVEL_NUMBERS * needed.1))
}

fn room(random: &mut Random, needed: usize) -> usize {
    match random.below(30) {
        0 => random.below(needed + 1),
        1 => (needed + random.below(4)).saturating_sub(3),
        2 => 0,
        3..=5 => needed,
        6 => needed + 40 + random.below(60),
        _ => needed + random.below(14),
    }
}

fn output_length(random: &mut Random, used: usize) -> usize {
    match random.below(8) {
        0 => random.below(used + 1),
        1 => used.saturating_sub(1),
        2 | 3 => used,
        _ => used + random.below(30),
    }
}

/// The bytes that may serve as a separator.
fn fit_byte(random: &mut Random) -> u8 {
    loop {
        let byte = match random.below(3) {
            0 => 1 + random.below(31) as u8,
            _ => 33 + random.below(94) as u8,
        };
        if !byte.is_ascii_alphanumeric() && byte != b'.' && byte != b'-' {
            return byte;
        }
    }
}

/// A fit set, the standard one in about half of all cases; CR or LF is now and then one of the three.
fn fit_set(random: &mut Random) -> Separators {
    if random.chance(50) {
        return Separators::STANDARD;
    }
    loop {
        let mut set = [fit_byte(random), fit_byte(random), fit_byte(random)];
        for byte in *b"\r\n" {
            if random.chance(5) {
                set[random.below(3)] = byte;
            }
        }
        let set = Separators::new(set[0], set[1], set[2]);
        if set.fit() {
            return set;
        }
    }
}

/// Any set, hardly ever fit.
fn any_set(random: &mut Random) -> Separators {
    let mut set = [fit_byte(random), fit_byte(random), fit_byte(random)];
    match random.below(3) {
        0 => set[random.below(3)] = random.below(256) as u8,
        1 => set[random.below(3)] = set[random.below(3)],
        _ => set[random.below(3)] = *random.pick(b"\0\x7F\x80\xFFAZaz09 .-"),
    }
    Separators::new(set[0], set[1], set[2])
}

/// A set to rewrite with: the same, the same in another order, another fit one, or any.
fn new_set(random: &mut Random, old: Separators) -> Separators {
    match random.below(20) {
        0 | 1 => old,
        2 => Separators::new(old.component, old.terminator, old.element),
        3 => Separators::new(old.terminator, old.component, old.element),
        4 => Separators::new(old.component, old.element, old.terminator),
        5 => Separators::new(fit_byte(random), old.element, old.component),
        6 | 7 => any_set(random),
        8..=12 => Separators::new(1, 2, 3),
        _ => fit_set(random),
    }
}
