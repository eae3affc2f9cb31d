//! The levels listed under their parents (document 02, Item 2): against tables told by hand, against a plain
//! walk on every small table and on generated ones, and the words themselves held to the listings of generated
//! reports.

mod both;
mod walking;

use both::given;
use reference::generator::{fit_levels, level_table, report, Random, WalkCase};
use reference::vectors::walks::{Level, FIT, UNFIT};
use reference::vectors::{groups, Case};
use reference::{walk, LineEnds, LEVEL_NUMBERS};
use std::collections::{BTreeMap, BTreeSet};
use walking::{numbers_of, walk_plainly};

/// What each number of the output holds before.
const HELD: u64 = 900_000;

/// The two numbers of a walk and the output after it, which must be as the plain walk leaves them.
fn walked(levels: &[u64], count: u64, output_length: usize) -> ([u64; 2], Vec<u64>) {
    let mut output = vec![HELD; output_length];
    let answer = walk(levels, count, &mut output).numbers();
    let mut plain = vec![HELD; output_length];
    let plain_answer = walk_plainly(levels, count, &mut plain);
    assert_eq!(
        (answer, &output),
        (plain_answer, &plain),
        "{levels:?}, count {count}, output {output_length}"
    );
    (answer, output)
}

/// A table with these parents and depths.
fn table(levels: &[[u64; 2]]) -> Vec<u64> {
    levels.iter().flat_map(|[parent, depth]| [5, *parent, *depth, 2]).collect()
}

/// Every table of so many levels, each with one of these parents and one of these depths.
fn every_table(levels: usize, parents: &[u64], depths: &[u64]) -> Vec<Vec<[u64; 2]>> {
    let records: Vec<[u64; 2]> =
        parents.iter().flat_map(|parent| depths.iter().map(|depth| [*parent, *depth])).collect();
    let mut all = vec![Vec::new()];
    for _ in 0..levels {
        all = all
            .iter()
            .flat_map(|table| records.iter().map(|record| [&table[..], &[*record]].concat()))
            .collect();
    }
    all
}

/// Every table of so many levels that can be walked.
fn every_fit_table(levels: usize) -> Vec<Vec<[u64; 2]>> {
    let mut all: Vec<Vec<[u64; 2]>> = vec![Vec::new()];
    for _ in 0..levels {
        all = all.iter().flat_map(|table| fit_behind(table)).collect();
    }
    all
}

/// This table with one level more, in every way.
fn fit_behind(table: &[[u64; 2]]) -> Vec<Vec<[u64; 2]>> {
    let under = (1..).zip(table).filter(|(_, [_, depth])| *depth < 4);
    let records = under.map(|(number, [_, depth])| [number, depth + 1]).chain([[0, 1]]);
    records.map(|record| [table, &[record]].concat()).collect()
}

#[test]
fn tables_told_by_hand_are_given_and_are_in_the_vectors() {
    let group = groups().into_iter().find(|group| group.name == "walks").unwrap();
    // The parents and depths of the tables that are walked whole.
    let mut whole: BTreeSet<Vec<[u64; 2]>> = BTreeSet::new();
    for told in &group.cases {
        let Case::Walk { levels, count, .. } = &told.case else { panic!("no walk: {:?}", told.case) };
        if levels.len() == LEVEL_NUMBERS * count {
            let numbers = numbers_of(levels);
            whole.insert(numbers.chunks(LEVEL_NUMBERS).map(|record| [record[1], record[2]]).collect());
        }
    }
    let widened = |levels: &[Level]| -> Vec<[u64; 2]> {
        levels.iter().map(|(parent, depth)| numbers_of(&[*parent, *depth]).try_into().unwrap()).collect()
    };
    for (levels, order) in FIT {
        let levels = widened(levels);
        let count = levels.len() as u64;
        assert_eq!(walked(&table(&levels), count, levels.len()), ([0, count], order.to_vec()));
        assert!(whole.contains(&levels), "{levels:?}");
    }
    for (levels, unfit) in UNFIT {
        let levels = widened(levels);
        assert_eq!(walked(&table(&levels), levels.len() as u64, 9), ([20, unfit], vec![HELD; 9]));
        assert!(whole.contains(&levels), "{levels:?}");
    }
    println!("{} cases", group.cases.len());
}

#[test]
fn every_small_table() {
    let (mut fit, mut all) = (0, 0);
    for levels in 0..=3 {
        for records in every_table(levels, &[0, 1, 2, 3, 4, u64::MAX], &[0, 1, 2, 3, 4, u64::MAX]) {
            for length in 0..=levels + 2 {
                let (answer, _) = walked(&table(&records), levels as u64, length);
                fit += usize::from(answer[0] == 0);
                all += 1;
            }
        }
    }
    println!("{fit} of {all} walked");
    // Tables of none to three levels are walked in 1, 1, 2 and 6 ways, each with three outputs.
    assert_eq!(fit, 3 * (1 + 1 + 2 + 6));
}

#[test]
fn every_fit_table_and_one_number_beside() {
    let mut tables = Vec::new();
    for levels in 0..=6 {
        let fit = every_fit_table(levels);
        tables.push(fit.len());
        for records in &fit {
            let (answer, listed) = walked(&table(records), levels as u64, levels);
            assert_eq!(answer, [0, levels as u64]);
            held_to_the_words(&table(records), &listed);
        }
        for mut records in fit {
            one_number_beside(&mut records);
        }
    }
    // Each hangs under none or an earlier one, in 1, 1, 2, 6, 24, 120 and 720 ways; too deep are the chain of
    // five, and of six levels the chain of all and 19 that have one of five in them.
    assert_eq!(tables, [1, 1, 2, 6, 24, 119, 700]);
}

/// Walks with each of the numbers in turn changed to another.
fn one_number_beside(records: &mut [[u64; 2]]) {
    let levels = records.len() as u64;
    for at in 0..records.len() {
        for place in 0..2 {
            let held = records[at][place];
            for number in (0..=levels + 1).chain([u64::MAX]) {
                records[at][place] = number;
                walked(&table(records), levels, records.len());
            }
            records[at][place] = held;
        }
    }
}

/// Every level appears once. Behind a level without a parent come its children and theirs, up to the next
/// without one; so it is under each level too. Children of one parent are in file order.
fn held_to_the_words(levels: &[u64], listed: &[u64]) {
    let mut sorted = listed.to_vec();
    sorted.sort();
    assert_eq!(sorted, (1..=listed.len() as u64).collect::<Vec<u64>>());
    let record = |level: u64| &levels[LEVEL_NUMBERS * (level as usize - 1)..][..LEVEL_NUMBERS];
    // The levels above the one before, outermost first, and that one itself.
    let mut path: Vec<u64> = Vec::new();
    let mut last_child: BTreeMap<u64, u64> = BTreeMap::new();
    for level in listed {
        let (parent, depth) = (record(*level)[1], record(*level)[2] as usize);
        path.truncate(depth - 1);
        assert_eq!((path.len(), path.last().copied().unwrap_or(0)), (depth - 1, parent), "{listed:?}");
        assert!(last_child.insert(parent, *level) < Some(*level), "{listed:?}");
        path.push(*level);
    }
}

#[test]
fn generated_tables() {
    let mut came: BTreeMap<&str, usize> = BTreeMap::new();
    for seed in 0..60_000 {
        let WalkCase { levels, count, output_length } = level_table(&mut Random::new(seed), 30);
        let (answer, output) = walked(&levels, count, output_length);
        let kind = match answer {
            [0, 0] => "no level",
            [0, walked] if output[..walked as usize].is_sorted() => "in file order",
            [0, _] => "in another order",
            [20, 0] => "no room",
            [20, 1] => "the first is unfit",
            [20, level] if level == count => "the last is unfit",
            [20, _] => "one between is unfit",
            _ => "a short output",
        };
        *came.entry(kind).or_default() += 1;
        if answer[0] == 0 {
            held_to_the_words(&levels, &output[..count as usize]);
        }
    }
    println!("{came:?}");
    assert_eq!(came.len(), 8);
    for (kind, count) in came {
        assert!(count > 500, "{kind} came {count} times");
    }
}

#[test]
fn large_tables() {
    for seed in 0..60 {
        let mut random = Random::new(seed);
        let count = 1 + random.below(5000);
        let levels = fit_levels(&mut random, count).concat();
        let (answer, listed) = walked(&levels, count as u64, count);
        assert_eq!(answer, [0, count as u64]);
        held_to_the_words(&levels, &listed);
    }
}

/// Whatever a reading accepts can be walked, and so can what a refusal leaves.
#[test]
fn levels_of_generated_reports() {
    let (mut accepted, mut scattered) = (0, 0);
    for seed in 0..12_000 {
        let case = report(seed);
        let rooms = (case.segment_numbers, case.level_numbers);
        let outcome = given(&case.input, case.separators, (LineEnds::Skipped, case.profile), rooms);
        let count = outcome.records().iter().map(|record| record[3]).max().unwrap_or(0);
        let (answer, output) = walked(&outcome.levels, count, count as usize + 2);
        assert_eq!(answer, [0, count], "seed {seed}");
        let (listed, behind) = output.split_at(count as usize);
        assert_eq!(behind, [HELD; 2], "seed {seed}");
        held_to_the_words(&outcome.levels, listed);
        accepted += usize::from(outcome.answer[0] == 0);
        scattered += usize::from(!listed.is_sorted());
    }
    println!("{accepted} accepted, {scattered} in another order");
    assert!(accepted > 2000 && scattered > 200);
}
