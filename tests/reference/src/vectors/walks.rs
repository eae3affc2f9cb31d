//! Walks (document 02, Item 2): levels listed under their parents, levels that are unfit, counts below and above
//! the room, outputs that are short and long.

use super::case::{Case, Told};
use super::TABLE_NUMBERS;
use crate::generator::{level_table, Random, WalkCase};
use crate::LEVEL_NUMBERS;

/// A level as it is told here: its parent's number and its depth. 255 stands for the largest number.
pub type Level = (u8, u8);

/// Tables that can be walked, and their levels in the order of the walk, told by hand.
pub const FIT: [(&[Level], &[u64]); 19] = [
    // In the order of an outline already: none, one, a child, roots alone, down and back.
    (&[], &[]),
    (&[(0, 1)], &[1]),
    (&[(0, 1), (1, 2)], &[1, 2]),
    (&[(0, 1), (0, 1), (0, 1)], &[1, 2, 3]),
    (ORDERED, &[1, 2, 3, 4, 5, 6, 7, 8, 9, 10, 11]),
    // A child behind another root, and one under each of two.
    (&[(0, 1), (0, 1), (1, 2)], &[1, 3, 2]),
    (&[(0, 1), (0, 1), (2, 2), (1, 2)], &[1, 4, 2, 3]),
    // Children in turns, and in reverse.
    (&[(0, 1), (0, 1), (0, 1), (1, 2), (2, 2), (3, 2), (1, 2), (2, 2), (3, 2)], &[1, 4, 7, 2, 5, 8, 3, 6, 9]),
    (&[(0, 1), (0, 1), (0, 1), (3, 2), (2, 2), (1, 2)], &[1, 6, 2, 5, 3, 4]),
    // One depth after the other, straight and crosswise.
    (&[(0, 1), (0, 1), (1, 2), (2, 2), (3, 3), (4, 3), (5, 4), (6, 4)], &[1, 3, 5, 7, 2, 4, 6, 8]),
    (&[(0, 1), (0, 1), (2, 2), (1, 2), (4, 3), (3, 3), (6, 4), (5, 4)], &[1, 4, 5, 8, 2, 3, 6, 7]),
    // Far behind other branches: the deepest level, each of the deeper ones, and all back to the second depth.
    (&[(0, 1), (1, 2), (2, 3), (0, 1), (4, 2), (0, 1), (3, 4)], &[1, 2, 3, 7, 4, 5, 6]),
    (&[(0, 1), (0, 1), (1, 2), (0, 1), (3, 3), (0, 1), (5, 4)], &[1, 3, 5, 7, 2, 4, 6]),
    (&[(0, 1), (1, 2), (2, 3), (3, 4), (0, 1), (3, 4), (2, 3), (1, 2)], &[1, 2, 3, 4, 6, 7, 8, 5]),
    // Only the last is astray; one is, and those behind it are in order again, under it and beside it.
    (&[(0, 1), (1, 2), (2, 3), (0, 1), (4, 2), (1, 2)], &[1, 2, 3, 6, 4, 5]),
    (&[(0, 1), (1, 2), (0, 1), (1, 2), (4, 3), (5, 4), (0, 1)], &[1, 2, 4, 5, 6, 3, 7]),
    (&[(0, 1), (0, 1), (1, 2), (2, 2), (4, 3), (4, 3), (2, 2)], &[1, 3, 2, 4, 5, 6, 7]),
    (SCATTERED, &[1, 4, 7, 11, 6, 2, 3, 5, 8, 10, 9]),
    // Numbers of two digits come behind those of one.
    (
        &[(0, 1), (0, 1), (1, 2), (1, 2), (1, 2), (1, 2), (1, 2), (1, 2), (1, 2), (1, 2), (1, 2), (1, 2)],
        &[1, 3, 4, 5, 6, 7, 8, 9, 10, 11, 12, 2],
    ),
];

/// Levels that stand as they are walked, down to the fourth depth and back to each of the others.
const ORDERED: &[Level] =
    &[(0, 1), (1, 2), (2, 3), (3, 4), (3, 4), (2, 3), (6, 4), (1, 2), (8, 3), (0, 1), (10, 2)];

/// 1 has 4 and 6, 4 has 7, and 7 has 11; 2 has 3 and 10, and 3 has 5 and 8; 9 has none.
const SCATTERED: &[Level] =
    &[(0, 1), (0, 1), (2, 2), (1, 2), (3, 3), (1, 2), (4, 3), (3, 3), (0, 1), (2, 2), (7, 4)];

/// Tables that cannot be walked, and the first level that is unfit, told by hand.
pub const UNFIT: [(&[Level], u64); 24] = [
    // The only level: its own parent, under one that is not there, too deep, not deep enough.
    (&[(1, 2)], 1),
    (&[(1, 1)], 1),
    (&[(2, 2)], 1),
    (&[(255, 1)], 1),
    (&[(255, 0)], 1),
    (&[(0, 0)], 1),
    (&[(0, 2)], 1),
    (&[(0, 255)], 1),
    // Two that are each other's parents.
    (&[(2, 2), (1, 2)], 1),
    (&[(0, 1), (3, 2), (2, 2)], 2),
    // Under the fourth depth there is no depth that fits.
    (&[(0, 1), (1, 2), (2, 3), (3, 4), (4, 5)], 5),
    (&[(0, 1), (1, 2), (2, 3), (3, 4), (4, 4)], 5),
    (&[(0, 1), (1, 2), (2, 3), (3, 4), (4, 1)], 5),
    (&[(0, 1), (1, 2), (2, 3), (3, 4), (4, 0)], 5),
    (&[(0, 1), (1, 2), (2, 3), (3, 4), (4, 255)], 5),
    (&[(0, 1), (0, 1), (1, 2), (3, 3), (2, 2), (4, 4), (0, 1), (6, 5), (1, 2)], 8),
    // Of several the first: the next is its child and follows it, has more wrong with it, or is its parent.
    (&[(0, 1), (1, 2), (2, 3), (3, 4), (4, 5), (5, 6), (9, 9)], 5),
    (&[(0, 2), (1, 3), (2, 4)], 1),
    (&[(0, 1), (0, 2), (2, 3), (3, 4)], 2),
    (&[(0, 1), (1, 3), (2, 4), (255, 255)], 2),
    (&[(0, 1), (3, 2), (7, 1)], 2),
    (&[(0, 1), (0, 1), (1, 1), (2, 3), (3, 2)], 3),
    // One more than the largest number would be 0.
    (&[(0, 1), (1, 255), (2, 0)], 2),
    (&[(255, 255), (1, 0)], 1),
];

/// Segment and code of the levels in most cases, and others, which are not judged either.
const MARKS: [u8; 2] = [9, 2];
const ODD_MARKS: [[u8; 2]; 5] = [[0, 0], [255, 255], [0, 255], [1, 4], [254, 7]];

/// An output of more numbers than most of these tables have levels.
const LONG_OUTPUT: usize = 13;

/// The cases of this group.
pub fn cases() -> Vec<Told> {
    let told = [fit(), unfit(), small(), spoiled(), marked(), rooms(), counts(), outputs(), full()];
    [told.concat(), generated()].concat()
}

/// The bytes of a table whose levels all have that segment and that code.
fn marked_table(levels: &[Level], [segment, code]: [u8; 2]) -> Vec<u8> {
    levels.iter().flat_map(|(parent, depth)| [segment, *parent, *depth, code]).collect()
}

/// The bytes of a table.
fn table(levels: &[Level]) -> Vec<u8> {
    marked_table(levels, MARKS)
}

/// A walk that is told to give these two numbers.
fn walk(levels: Vec<u8>, count: usize, output: usize, [number, level]: [u64; 2]) -> Told {
    Told { case: Case::Walk { levels, count, output }, answer: Some([number, level, 0, 0]) }
}

/// A walk of a whole table that is fit, with an output of just the length that it takes.
fn listed(levels: &[Level]) -> Told {
    walk(table(levels), levels.len(), levels.len(), [0, levels.len() as u64])
}

/// A walk of a whole table whose first unfit level is told.
fn refused(levels: &[Level], unfit: u64) -> Told {
    walk(table(levels), levels.len(), LONG_OUTPUT, [20, unfit])
}

/// The tables told by hand, each with an output that is longer too.
fn fit() -> Vec<Told> {
    let longer = |levels: &[Level]| {
        walk(table(levels), levels.len(), levels.len() + 1 + levels.len() % 3, [0, levels.len() as u64])
    };
    FIT.iter().flat_map(|(levels, _)| [listed(levels), longer(levels)]).collect()
}

fn unfit() -> Vec<Told> {
    UNFIT.iter().map(|(levels, unfit)| refused(levels, *unfit)).collect()
}

/// Every table of one to five levels that can be walked.
fn small() -> Vec<Told> {
    let mut tables: Vec<Vec<Level>> = vec![Vec::new()];
    let mut cases = Vec::new();
    for _ in 0..5 {
        tables = tables.iter().flat_map(|levels| one_more(levels)).collect();
        cases.extend(tables.iter().map(|levels| listed(levels)));
    }
    cases
}

/// This table with one level more, in every way.
fn one_more(levels: &[Level]) -> Vec<Vec<Level>> {
    let parents = (1..).zip(levels).filter(|(_, (_, depth))| *depth < 4);
    let level = parents.map(|(number, (_, depth))| (number, depth + 1)).chain([(0, 1)]);
    level.map(|level| [levels, &[level]].concat()).collect()
}

/// The first level, one between and the last, each unfit in every way.
fn spoiled() -> Vec<Told> {
    let mut cases = Vec::new();
    for levels in [ORDERED, SCATTERED] {
        for number in [1, 5, levels.len()] {
            for level in in_place_of(levels, number as u8) {
                let mut levels = levels.to_vec();
                levels[number - 1] = level;
                cases.push(refused(&levels, number as u64));
            }
        }
    }
    cases
}

/// What is unfit in the place of that level.
fn in_place_of(levels: &[Level], number: u8) -> Vec<Level> {
    let (before, own, last) = (&levels[..usize::from(number) - 1], number, levels.len() as u8);
    let (parent, depth) = levels[before.len()];
    let mut unfit = vec![(own, depth), (own, 2), (own + 1, depth), (last, depth), (last + 1, depth)];
    unfit.extend([(254, depth), (255, depth), (255, 0), (255, 1), (255, 255)]);
    unfit.extend([0, depth - 1, depth + 1, 5, 6, 254, 255].map(|other| (parent, other)));
    unfit.extend([0, 2, depth, 5, 255].map(|other| (0, other)).into_iter().filter(|level| *level != (0, 1)));
    // Earlier ones whose depth is another than the parent's; under those of the fourth no depth fits.
    let earlier = (1..).zip(before).filter(|(_, (_, above))| above + 1 != depth);
    unfit.extend(earlier.map(|(number, _)| (number, depth)));
    let deepest = (1..).zip(before).filter(|(_, (_, above))| *above == 4);
    unfit.extend(deepest.map(|(number, _)| (number, 5)));
    unfit.sort();
    unfit.dedup();
    unfit
}

/// Segments and codes of any kind.
fn marked() -> Vec<Told> {
    let mut cases = Vec::new();
    for marks in ODD_MARKS {
        for levels in [ORDERED, SCATTERED] {
            let count = levels.len();
            cases.push(walk(marked_table(levels, marks), count, LONG_OUTPUT, [0, count as u64]));
        }
        for (levels, unfit) in UNFIT.into_iter().step_by(5) {
            cases.push(walk(marked_table(levels, marks), levels.len(), LONG_OUTPUT, [20, unfit]));
        }
    }
    cases
}

/// Tables of every length, with counts around the room and far above it.
fn rooms() -> Vec<Told> {
    let mut cases = Vec::new();
    let whole = table(&SCATTERED[..6]);
    for length in 0..=whole.len() {
        let room = length / LEVEL_NUMBERS;
        let mut counts = vec![0, room.saturating_sub(1), room, room + 1, length, 65_535];
        counts.sort();
        counts.dedup();
        for count in counts {
            let answer = if count <= room { [0, count as u64] } else { [20, 0] };
            // An output that is too short is not looked at where the count is above the room.
            let output = if count <= room { LONG_OUTPUT } else { count % 9 };
            cases.push(walk(whole[..length].to_vec(), count, output, answer));
        }
    }
    // Counts of which a part, or four times which, is small.
    for count in [64, 255, 256, 257, 262, 16_384, 16_390, 32_768, 65_535] {
        cases.push(walk(whole.clone(), count, LONG_OUTPUT, [20, 0]));
    }
    cases
}

/// Every count on a table with an unfit level: what lies behind the count is not judged.
fn counts() -> Vec<Told> {
    let mut cases = Vec::new();
    for unfit in [1, 4, 7] {
        let mut levels = SCATTERED[..7].to_vec();
        levels[unfit - 1] = (255, 255);
        for count in 0..=levels.len() + 1 {
            let answer = match count {
                _ if count > levels.len() => [20, 0],
                _ if count < unfit => [0, count as u64],
                _ => [20, unfit as u64],
            };
            cases.push(walk(table(&levels), count, LONG_OUTPUT, answer));
        }
    }
    cases
}

/// Outputs of every length around the count, the empty one and the longest; what is unfit comes first. Behind
/// the levels stands a part of a record, or nothing.
fn outputs() -> Vec<Told> {
    let mut cases = Vec::new();
    for output in (0..=9).chain([60, TABLE_NUMBERS - 1, TABLE_NUMBERS]) {
        let lent = |levels: &[Level]| [&table(levels), &[9, 0, 1][..output % LEVEL_NUMBERS]].concat();
        for levels in [&ORDERED[..6], &SCATTERED[..6]] {
            for count in [0, 1, 5, 6] {
                let answer = if output < count { [21, 0] } else { [0, count as u64] };
                cases.push(walk(lent(levels), count, output, answer));
            }
            cases.push(walk(lent(levels), 7, output, [20, 0]));
        }
        for unfit in [1, 4, 6] {
            let mut levels = SCATTERED[..6].to_vec();
            levels[unfit - 1].1 += 1;
            cases.push(walk(lent(&levels), 6, output, [20, unfit as u64]));
        }
    }
    cases
}

/// Tables that are as long as a case allows: thirty levels.
fn full() -> Vec<Told> {
    let most = TABLE_NUMBERS / LEVEL_NUMBERS;
    let under = |levels: &[Level], parent: usize| match parent {
        0 => (0, 1),
        _ => (parent as u8, levels[parent - 1].1 + 1),
    };
    // Which parent a level has: none, the first, the one before, one far before, one from behind, and so on.
    let parents: [fn(usize) -> usize; 8] = [
        |_| 0,
        |number| usize::from(number > 1),
        |number| if number % 4 == 1 { 0 } else { number - 1 },
        |number| number.saturating_sub(8),
        |number| if number <= 15 { 0 } else { 31 - number },
        |number| if number <= 2 { 0 } else { 1 + number % 2 },
        |number| number / 4,
        |number| [0, 1, 2, 3, 3, 2, 6, 1][(number - 1) % 8],
    ];
    let mut cases = Vec::new();
    for parent in parents {
        let mut levels: Vec<Level> = Vec::new();
        for number in 1..=most {
            levels.push(under(&levels, parent(number)));
        }
        let whole = table(&levels);
        cases.push(walk(whole.clone(), most, most, [0, most as u64]));
        cases.push(walk(whole.clone(), most, TABLE_NUMBERS, [0, most as u64]));
        cases.push(walk(whole.clone(), most, most - 1, [21, 0]));
        cases.push(walk(whole.clone(), most + 1, most, [20, 0]));
        cases.push(walk(whole[..TABLE_NUMBERS - 1].to_vec(), most - 1, most, [0, most as u64 - 1]));
        cases.push(walk(whole[..TABLE_NUMBERS - 1].to_vec(), most, most, [20, 0]));
        levels[most - 1] = (most as u8, 2);
        cases.push(walk(table(&levels), most, most, [20, most as u64]));
    }
    cases
}

/// How many tables are generated, and how many levels these have at most.
const GENERATED: u64 = 200;
const LEVELS: usize = 26;

/// Tables made from a seed, with greater numbers than a byte has made the largest.
fn generated() -> Vec<Told> {
    let made = (0..GENERATED).map(|seed| level_table(&mut Random::new(seed), LEVELS));
    let byte = |number: &u64| u8::try_from(*number).unwrap_or(u8::MAX);
    made.map(|WalkCase { levels, count, output_length }| {
        let count = usize::from(u16::try_from(count).unwrap_or(u16::MAX));
        Case::Walk { levels: levels.iter().map(byte).collect(), count, output: output_length }.into()
    })
    .collect()
}
