//! Level tables to walk: fit ones in every order, some with something unfit in them; counts above the room,
//! and outputs of every length.

use super::random::Random;
use crate::LEVEL_NUMBERS;

/// What is lent to a walk.
#[derive(Clone, Debug, PartialEq, Eq)]
pub struct WalkCase {
    /// The numbers of the level table.
    pub levels: Vec<u64>,
    /// How many levels are to be walked.
    pub count: u64,
    /// How many numbers the output has.
    pub output_length: usize,
}

/// The record of a level: segment, parent, depth, code.
type Record = [u64; LEVEL_NUMBERS];

/// How deep a level may be.
const DEEPEST: u64 = 4;

/// So many tables of a hundred have something unfit in them, and so many of these something more.
const UNFIT: usize = 45;
const TWICE: usize = 40;

/// A table of up to so many levels, and what is asked of it.
pub fn level_table(random: &mut Random, most: usize) -> WalkCase {
    let levels = random.below(most + 1);
    let mut records = fit_levels(random, levels);
    if levels > 0 && random.chance(UNFIT) {
        damage(random, &mut records);
        while random.chance(TWICE) {
            damage(random, &mut records);
        }
    }
    let mut numbers = records.concat();
    // Behind the levels there may be a part of a record, or records of any kind.
    let behind = *random.pick(&[0, 0, 1, 3, 4, 11]);
    numbers.extend((0..behind).map(|_| random.number() >> random.below(64)));
    let count = count(random, levels as u64, (numbers.len() / LEVEL_NUMBERS) as u64);
    let needed = usize::try_from(count).map_or(levels, |count| count.min(levels + 2));
    WalkCase { levels: numbers, count, output_length: output_length(random, needed) }
}

/// How many levels are asked for: mostly all that were made, or fewer, or what is behind them too, or more than
/// there is room for. Four times some of these counts is small again in 64 bits.
fn count(random: &mut Random, levels: u64, room: u64) -> u64 {
    match random.below(20) {
        0 => random.below(levels as usize + 1) as u64,
        1 => room,
        2 => room + 1,
        3 => *random.pick(&[room + 2, 4 * room + 1, u64::MAX, 1 << 61, 1 << 62, 1 << 63, (1 << 62) + levels]),
        _ => levels,
    }
}

/// As long as is needed, longer or shorter.
fn output_length(random: &mut Random, needed: usize) -> usize {
    match random.below(10) {
        0 => needed.saturating_sub(1),
        1 => random.below(needed + 1),
        2..=5 => needed + 1 + random.below(6),
        _ => needed,
    }
}

/// So many levels that can be walked, in an order of their own.
pub fn fit_levels(random: &mut Random, count: usize) -> Vec<[u64; LEVEL_NUMBERS]> {
    let parents: fn(&mut Random, &[Record]) -> u64 = match random.below(5) {
        0 | 1 => under_the_last,
        2 => anywhere,
        3 => near,
        _ => return in_blocks(random, count),
    };
    let mut records = Vec::with_capacity(count);
    for _ in 0..count {
        let parent = parents(random, &records);
        add(random, &mut records, parent);
    }
    records
}

/// Adds a level under that parent, with any segment and any code.
fn add(random: &mut Random, records: &mut Vec<Record>, parent: u64) {
    let depth = 1 + depth_of(records, parent);
    records.push([random.number() >> random.below(64), parent, depth, random.below(8) as u64]);
}

/// The depth of a level; 0 of none.
fn depth_of(records: &[Record], level: u64) -> u64 {
    level.checked_sub(1).map_or(0, |before| records[before as usize][2])
}

/// The last level or one above it, or none: the levels stand as they are walked.
fn under_the_last(random: &mut Random, records: &[Record]) -> u64 {
    let mut parent = records.len() as u64;
    while parent > 0 && (depth_of(records, parent) == DEEPEST || random.chance(40)) {
        parent = records[parent as usize - 1][1];
    }
    parent
}

/// Any level before, or none.
fn anywhere(random: &mut Random, records: &[Record]) -> u64 {
    shallow(records, random.below(records.len() + 1) as u64)
}

/// One of the last few levels, or none now and then.
fn near(random: &mut Random, records: &[Record]) -> u64 {
    if random.chance(15) {
        return 0;
    }
    shallow(records, (records.len() - random.below(records.len().min(5))) as u64)
}

/// The level, or its parent where it is too deep to have children.
fn shallow(records: &[Record], level: u64) -> u64 {
    if depth_of(records, level) == DEEPEST {
        records[level as usize - 1][1]
    } else {
        level
    }
}

/// All levels of the first depth, then all of the second, and so on; each depth takes its parents forwards or
/// backwards, so that hardly any level stands where it is walked.
fn in_blocks(random: &mut Random, count: usize) -> Vec<Record> {
    let share = count.div_ceil(DEEPEST as usize).max(1);
    let mut records = Vec::with_capacity(count);
    let mut parents = vec![0; share];
    while records.len() < count {
        let first = records.len() as u64 + 1;
        for parent in parents.iter().take(count - records.len()) {
            add(random, &mut records, *parent);
        }
        parents = (first..=records.len() as u64).collect();
        if random.chance(70) {
            parents.reverse();
        }
    }
    records
}

/// Makes a level unfit, or nearly so: the first, the last or any, in its parent or in its depth or in both.
fn damage(random: &mut Random, records: &mut [Record]) {
    let last = records.len() - 1;
    let any = random.below(last + 1);
    let at = *random.pick(&[0, last, any, any]);
    let own = at as u64 + 1;
    let earlier = random.below(at + 1) as u64;
    let number = random.number() >> random.below(64);
    let [_, parent, depth, _] = records[at];
    let [parent, depth] = match random.below(16) {
        0 => [own, depth],
        1 => [own + 1, depth],
        2 => [last as u64 + 2, depth],
        3 => [u64::MAX, depth],
        4 => [number, depth],
        5 => [earlier, depth],
        6 => [0, depth],
        7 => [0, 2],
        8 => [parent, 0],
        9 => [parent, 1],
        10 => [parent, depth.wrapping_add(1)],
        11 => [parent, depth.wrapping_sub(1)],
        12 => [parent, u64::MAX],
        13 => [parent, number],
        // Too deep where a level of the fourth depth stands before it.
        14 => under(records, deepest(&records[..at])),
        // Fit itself, but its children may have the wrong depth then.
        _ => under(records, earlier),
    };
    (records[at][1], records[at][2]) = (parent, depth);
}

/// That parent and the depth that belongs to it.
fn under(records: &[Record], parent: u64) -> [u64; 2] {
    [parent, depth_of(records, parent).wrapping_add(1)]
}

/// The number of the deepest of these levels; 0 where there is none.
fn deepest(records: &[Record]) -> u64 {
    (1..).zip(records).max_by_key(|(_, record)| record[2]).map_or(0, |(number, _)| number)
}
