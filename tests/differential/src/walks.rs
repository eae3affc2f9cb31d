//! Walks by both sides: of the levels of every accepted report, of every small table, and of generated ones.

use crate::lent::Lent;
use crate::outcome::Outcome;
use crate::tally::Tally;
use reference::generator::{level_table, Random, WalkCase};
use reference::LEVEL_NUMBERS;

/// The answer's number, and the count or the level.
const NUMBERS: usize = 2;

/// So many generated tables come with each report, and so many levels they have at most.
const TABLES: usize = 4;
const LEVELS: usize = 24;

/// How many large tables there are, and how many levels they have at most.
pub const LARGE_TABLES: u64 = 200;
pub const MOST: usize = 2000;

/// The numbers that stand as parents and as depths in every small table.
const SMALL: [u64; 7] = [0, 1, 2, 3, 4, 5, u64::MAX];
/// How many levels the largest of them have.
const SMALL_LEVELS: usize = 3;
/// How many levels the largest of the tables have that can be walked, each of which is there.
const FIT_LEVELS: usize = 6;
/// How deep a level may be.
const DEEPEST: u64 = 4;

/// A level as a small table has it: its parent and its depth.
type Record = [u64; 2];

extern "C" {
    fn stormhlaw_walk(
        levels: *const u64,
        levels_length: usize,
        count: u64,
        output: *mut u64,
        output_length: usize,
        answer: *mut u64,
    );
}

/// All that a walk leaves behind, and the table, which it must leave alone.
struct Walked {
    answer: Lent<u64>,
    levels: Lent<u64>,
    output: Lent<u64>,
}

impl Walked {
    /// Before the walk of this table.
    fn new(levels: &[u64], output_length: usize) -> Walked {
        let mut lent = Lent::new(levels.len());
        lent.part().copy_from_slice(levels);
        Walked { answer: Lent::new(NUMBERS), levels: lent, output: Lent::new(output_length) }
    }

    /// The library's walk.
    fn library(levels: &[u64], count: u64, output_length: usize) -> Walked {
        let mut walked = Walked::new(levels, output_length);
        let Walked { answer, levels, output } = &mut walked;
        let (answer, levels, output) = (answer.part(), levels.part(), output.part());
        let (to, length) = (output.as_mut_ptr(), output.len());
        // SAFETY: table and output live until the call returns, and the output and two numbers are lent for it alone.
        unsafe { stormhlaw_walk(levels.as_ptr(), levels.len(), count, to, length, answer.as_mut_ptr()) };
        walked
    }

    /// The independent walk.
    fn independent(levels: &[u64], count: u64, output_length: usize) -> Walked {
        let mut walked = Walked::new(levels, output_length);
        let answer = reference::walk(levels, count, walked.output.part()).numbers();
        walked.answer.part().copy_from_slice(&answer);
        walked
    }

    /// What differs, if anything does, or which guard was touched.
    fn difference(&mut self, other: &mut Walked) -> Option<String> {
        for (name, one) in [("the first", &*self), ("the second", &*other)] {
            if !(one.answer.guarded() && one.levels.guarded() && one.output.guarded()) {
                return Some(format!("{name} wrote outside of what was lent"));
            }
        }
        if self.answer.difference(&other.answer).is_some() {
            return Some(format!("walks {:?} and {:?}", self.answer.part(), other.answer.part()));
        }
        let places = [
            ("level table", self.levels.difference(&other.levels)),
            ("output", self.output.difference(&other.output)),
        ];
        let (name, place) = places.iter().find_map(|(name, place)| place.map(|place| (name, place)))?;
        Some(format!("walk {:?}, {name} at {place}", self.answer.part()))
    }
}

/// Compares one walk; the report is told of where there is one.
fn compare(tally: &mut Tally, name: &str, input: &[u8], levels: &[u64], count: u64, output_length: usize) {
    let mut one = Walked::library(levels, count, output_length);
    let mut two = Walked::independent(levels, count, output_length);
    tally.walked(two.answer.part()[0]);
    if let Some(difference) = one.difference(&mut two) {
        let shown = &levels[..levels.len().min(200)];
        let given = format!("a walk, count {count}, output of {output_length}, levels {shown:?}");
        tally.differs(name, &difference, input, &given);
    }
}

/// The levels of an accepted report, in what is lent of its table, with as much output as they need and with more.
pub fn of_report(tally: &mut Tally, name: &str, input: &[u8], outcome: &mut Outcome) {
    let [_, _, levels, _] = outcome.answer;
    for more in [0, 3] {
        compare(tally, name, input, outcome.levels.part(), levels, levels as usize + more);
    }
}

/// Some generated tables.
pub fn generated(tally: &mut Tally, name: &str, seed: u64) {
    let mut random = Random::new(seed ^ 0x02);
    for _ in 0..TABLES {
        table(tally, name, level_table(&mut random, LEVELS));
    }
}

/// Compares the walk of a generated table.
fn table(tally: &mut Tally, name: &str, WalkCase { levels, count, output_length }: WalkCase) {
    compare(tally, name, &[], &levels, count, output_length);
}

/// Every small table, every one of some more levels that can be walked with any one number changed, and large ones.
pub fn fixed(tally: &mut Tally) {
    small(tally, &mut Vec::new());
    fit(tally, &mut Vec::new());
    for seed in 0..LARGE_TABLES {
        table(tally, &format!("large table {seed}"), level_table(&mut Random::new(seed ^ 0x0200), MOST));
    }
    tally.expect_walks();
}

/// The numbers of a small table.
fn numbers(records: &[Record]) -> Vec<u64> {
    (3..).zip(records).flat_map(|(segment, [parent, depth])| [segment, *parent, *depth, 2]).collect()
}

/// Compares the walks of a small table: of all levels, with outputs around the count; of one level fewer or more; and of as many
/// as the greatest numbers say.
fn around(tally: &mut Tally, name: &str, records: &[Record]) {
    let (levels, count) = (numbers(records), records.len());
    for length in count.saturating_sub(1)..=count + 1 {
        compare(tally, name, &[], &levels, count as u64, length);
    }
    for other in [(count as u64).saturating_sub(1), count as u64 + 1, 1 << 62, u64::MAX] {
        compare(tally, name, &[], &levels, other, count);
    }
    // Room is a quarter of the length.
    for missing in 1..LEVEL_NUMBERS.min(levels.len()) {
        compare(tally, name, &[], &levels[..levels.len() - missing], count as u64, count);
    }
}

/// Every small table that begins with these levels.
fn small(tally: &mut Tally, records: &mut Vec<Record>) {
    around(tally, "small tables", records);
    if records.len() == SMALL_LEVELS {
        return;
    }
    for parent in SMALL {
        for depth in SMALL {
            records.push([parent, depth]);
            small(tally, records);
            records.pop();
        }
    }
}

/// Every table that can be walked and begins with these levels, and each with any one number changed.
fn fit(tally: &mut Tally, records: &mut Vec<Record>) {
    around(tally, "fit tables", records);
    beside(tally, records);
    if records.len() == FIT_LEVELS {
        return;
    }
    for parent in 0..=records.len() {
        let above = parent.checked_sub(1).map_or(0, |before| records[before][1]);
        if above < DEEPEST {
            records.push([parent as u64, above + 1]);
            fit(tally, records);
            records.pop();
        }
    }
}

/// Every parent and every depth in turn changed to each other number.
fn beside(tally: &mut Tally, records: &mut [Record]) {
    let count = records.len();
    for at in 0..count {
        for place in 0..2 {
            let held = records[at][place];
            for number in (0..=count as u64 + 1).chain([u64::MAX - 1, u64::MAX]) {
                records[at][place] = number;
                compare(tally, "fit tables, beside", &[], &numbers(records), count as u64, count);
            }
            records[at][place] = held;
        }
    }
}
