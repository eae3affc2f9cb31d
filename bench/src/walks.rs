//! Levels listed under their parents, and the table of how long that takes.

use crate::race::timed;
use crate::report::{Input, Report};
use crate::sides::{Lent, Side};
use reference::LEVEL_NUMBERS;
use std::hint::black_box;
use stormhlaw::raw;

/// How many levels there are.
const COUNTS: [usize; 2] = [1_000, 10_000];

/// How many rounds are timed at most.
const ROUNDS: usize = 10;

/// How many levels one measurement lists at least, by repeating the walk.
const LEVELS_A_MEASUREMENT: usize = 10_000;

/// So much output is lent beyond what is needed.
const MORE: usize = 10;

/// A report with so many levels.
type Levels = fn(usize) -> Vec<u8>;

/// The reports, each under its name. The second is made against the library.
const REPORTS: [(&str, Levels); 2] =
    [("in the order of the outline", in_order), ("children far, backwards", far_backwards)];

/// A walk: a level table, a count, the output, and the two numbers of the answer.
type Walk = fn(&[u64], u64, &mut [u64]) -> [u64; 2];

fn walk_by_hand(levels: &[u64], count: u64, output: &mut [u64]) -> [u64; 2] {
    reference::walk(levels, count, output).numbers()
}

/// The walks that are timed: the library's, and the hand-written one.
const WALKS: [Walk; 2] = [raw::walk, walk_by_hand];

/// One report with items as they usually come: ten levels each, components with characteristics and serial numbers under
/// them, and more of both under the item, all behind their parents.
fn in_order(count: usize) -> Vec<u8> {
    let mut report = Report::rooted();
    for number in 1..count {
        let place = (number - 1) % 10;
        let item = number - place;
        let (parent, code) = match place {
            0 => ("R".to_string(), "I"),
            1 | 4 => (item.to_string(), "F"),
            2 | 5 => ((number - 1).to_string(), "PC"),
            3 | 6 => ((number - 2).to_string(), "SN"),
            7 => (item.to_string(), "PC"),
            _ => (item.to_string(), "SN"),
        };
        report.add(&format!("HL*{number}*{parent}*{code}"));
    }
    report.close()
}

/// A quarter of the levels at each depth, one behind the other: each level has one child, and the children of a depth come
/// in the opposite order of their parents. So no two levels that follow each other in the outline are neighbours.
fn far_backwards(count: usize) -> Vec<u8> {
    let mut report = Report::new();
    let share = count / 4;
    for number in 1..=share {
        report.add(&format!("HL*{number}**RP"));
    }
    for (depth, code) in (1..).zip(["I", "F", "PC"]) {
        for place in 1..=share {
            report.add(&format!("HL*{}*{}*{code}", depth * share + place, depth * share + 1 - place));
        }
    }
    report.close()
}

/// All sides must list these levels, and in the same order.
fn agreed(name: &str, levels: &[u64], count: u64, output: &mut [u64]) {
    let outcomes = WALKS.map(|walk| {
        output.fill(7);
        (walk(levels, count, output), output.to_vec())
    });
    assert_eq!(outcomes[0].0, [0, count], "{name}: refused");
    assert!(outcomes[0] == outcomes[1], "{name}: the answers or the outputs differ");
}

/// Times both walks of a report's levels and prints a line.
fn time(input: &Input, library: &Side, rounds: usize, lent: &mut Lent) {
    let [_, _, count, _] = (library.read)(&input.bytes, input.how, lent);
    let levels = &lent.levels[..LEVEL_NUMBERS * count as usize];
    let mut output = vec![0; count as usize + MORE];
    agreed(input.name, levels, count, &mut output);
    let mut best = [f64::MAX; WALKS.len()];
    let times = LEVELS_A_MEASUREMENT.div_ceil(count as usize);
    for _ in 0..rounds {
        for (walk, best) in WALKS.iter().zip(&mut best) {
            *best = best.min(timed(times, || {
                black_box(walk(black_box(levels), count, &mut output));
            }));
        }
    }
    let figures = best.map(|best| format!(" {:>9.3} {:>8.1}", best / 1e6, best / count as f64));
    println!("{:<34} {count:>7}{}", input.name, figures.concat());
}

/// Times the walks of all reports and prints the table.
pub fn run(sides: &[Side], rounds: usize) {
    let [library, .., by_hand] = sides else { return };
    println!("\nlevels listed under their parents, beside a hand-written walk that sorts: milliseconds a walk, nanoseconds a level");
    println!(
        "{:<34} {:>7} {:>9} {:>8} {:>9} {:>8}",
        "levels", "count", library.name, "ns/level", by_hand.name, "ns/level"
    );
    let mut lent = Lent::new();
    for (name, report) in REPORTS {
        for count in COUNTS {
            time(&Input::new(name, report(count)), library, rounds.min(ROUNDS), &mut lent);
        }
    }
}
