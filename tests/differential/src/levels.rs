//! Reports of many levels: HL segments alone, their names far apart or alike, their parents near or far before them, and in two
//! of three something wrong at one of them.

use crate::outcome::Sizes;
use crate::tally::Tally;
use reference::generator::Random;
use reference::{Separators, LEVEL_NUMBERS, SEGMENT_NUMBERS};
use std::collections::HashSet;
use std::iter::repeat_with;

/// How many reports there are.
pub const REPORTS: u64 = 150;
/// How many levels the longest of them have.
pub const MOST: usize = 3000;

/// The answers that some of them must have.
const ANSWERS: [usize; 5] = [0, 12, 13, 15, 17];

/// Segments beside the levels: ST, BNR and SE.
const OTHERS: usize = 3;

/// How many lists the library puts names into.
const LISTS: usize = 512;

/// What words are made of.
const LETTERS: &[u8] = b"ABCDab01";
/// The longest word that may be a name.
const LONGEST: usize = 12;

/// A level as it is written.
struct Level {
    name: String,
    /// The parent's name; empty for none.
    parent: String,
    code: &'static str,
    /// HL04 with the separator before it; empty for none.
    mark: &'static str,
}

/// All reports, each with several table sizes. Each answer that is expected of some must be there.
pub fn many(tally: &mut Tally) {
    for seed in 0..REPORTS {
        let mut random = Random::new(seed ^ 0x1E7E_1500);
        let count = how_many(&mut random);
        let wrong = (!seed.is_multiple_of(3)).then_some(seed % 8);
        let input = report(&mut random, count, wrong);
        let name = format!("levels {seed}");
        for sizes in rooms(&mut random, count) {
            tally.read(&name, &input, Separators::STANDARD, 0, sizes);
            tally.read_hashed(&name, &input, Separators::STANDARD, sizes);
        }
    }
    tally.expect_hashed(&ANSWERS);
}

/// A number of levels: any, often a small one, one near the number of lists, or one near the most.
fn how_many(random: &mut Random) -> usize {
    match random.below(6) {
        0 => 2 + random.below(30),
        1 => LISTS - 2 + random.below(5),
        2 => MOST - random.below(10),
        _ => 2 + random.below(MOST - 1),
    }
}

/// Room for more levels than there are, for exactly so many, for one fewer, and for none; and for all levels, but hardly for all
/// segments.
fn rooms(random: &mut Random, count: usize) -> [Sizes; 5] {
    let segments = SEGMENT_NUMBERS * (count + OTHERS);
    let exactly = LEVEL_NUMBERS * count;
    [
        (segments + random.below(20), exactly + 1 + random.below(50)),
        (segments, exactly),
        (segments, exactly - 1 - random.below(LEVEL_NUMBERS)),
        (segments, 0),
        (random.below(segments + 1), exactly),
    ]
    .map(|(segments, levels)| Sizes { segments, levels, output: 0 })
}

/// A report with so many levels, and with that kind of damage if one is named.
fn report(random: &mut Random, count: usize, wrong: Option<u64>) -> Vec<u8> {
    let mut names = names(random, count + 1);
    let nobody = names.pop().unwrap_or_default();
    let mut levels = plan(random, names);
    if let Some(kind) = wrong {
        damage(random, &mut levels, kind, nobody);
    }
    let mut report = String::from("ST*842*0001~BNR*11*NR7*20240301~");
    for Level { name, parent, code, mark } in levels {
        report += &format!("HL*{name}*{parent}*{code}{mark}~");
    }
    report += &format!("SE*{}*0001~", count + OTHERS);
    report.into_bytes()
}

/// So many different names of one style.
fn names(random: &mut Random, count: usize) -> Vec<String> {
    let mut numbers: Vec<String> = (1..=count).map(|number| number.to_string()).collect();
    let shared = word(random, 8, 8);
    let lists = [random.below(LISTS), random.below(LISTS)];
    match random.below(8) {
        0 => numbers,
        1 => numbers.into_iter().rev().collect(),
        2 => {
            shuffle(random, &mut numbers);
            numbers
        }
        3 => different(count, || word(random, 1, LONGEST)),
        4 => different(count, || shared.clone() + &word(random, 1, LONGEST - 8)),
        5 => different(count, || word(random, 1, LONGEST - 8) + &shared),
        6 => different(count, || name_in(random, &lists[..1])),
        _ => different(count, || name_in(random, &lists)),
    }
}

/// Puts them into any order.
fn shuffle(random: &mut Random, names: &mut [String]) {
    for last in (1..names.len()).rev() {
        names.swap(last, random.below(last + 1));
    }
}

/// So many names, each taken once.
fn different(count: usize, next: impl FnMut() -> String) -> Vec<String> {
    let mut taken = HashSet::new();
    repeat_with(next).filter(|name| taken.insert(name.clone())).take(count).collect()
}

/// A word of at least and at most so many letters.
fn word(random: &mut Random, least: usize, most: usize) -> String {
    let length = least + random.below(most - least + 1);
    (0..length).map(|_| char::from(*random.pick(LETTERS))).collect()
}

/// A name that the library puts into one of these lists: a word with an ending that leads there.
fn name_in(random: &mut Random, lists: &[usize]) -> String {
    let next = |place: usize, byte: u8| (place * 37 + usize::from(byte)) % LISTS;
    loop {
        let word = word(random, 0, LONGEST - 2);
        let list = *random.pick(lists);
        let place = word.bytes().fold(0, next);
        let mut endings = (b'A'..=b'Z').flat_map(|one| (b'A'..=b'Z').map(move |two| [one, two]));
        if let Some(ending) = endings.find(|ending| ending.iter().copied().fold(place, next) == list) {
            return word + &ending.map(char::from).iter().collect::<String>();
        }
    }
}

/// The codes that may stand under one.
fn codes_under(code: &str) -> &'static [&'static str] {
    match code {
        "RP" => &["I"],
        "I" => &["F", "PC", "SN"],
        "F" => &["PC", "SN"],
        _ => &[],
    }
}

/// Levels of these names that keep every rule. Where none has a parent, none has a mark, so that a reply may have them too.
fn plan(random: &mut Random, names: Vec<String>) -> Vec<Level> {
    let with_parent = *random.pick(&[0, 50, 90, 100]);
    let mut levels: Vec<Level> = Vec::new();
    let mut has_child = vec![false; names.len()];
    // The levels so far that may have children.
    let mut open: Vec<usize> = Vec::new();
    for (at, name) in names.into_iter().enumerate() {
        let under = if random.chance(with_parent) { near_or_far(random, &open) } else { None };
        let codes = under.map_or(&["RP", "I"][..], |parent| codes_under(levels[parent].code));
        let code = *random.pick(codes);
        let parent = under.map_or(String::new(), |parent| levels[parent].name.clone());
        if let Some(parent) = under {
            has_child[parent] = true;
        }
        if !codes_under(code).is_empty() {
            open.push(at);
        }
        levels.push(Level { name, parent, code, mark: "" });
    }
    if with_parent > 0 {
        for (level, has_child) in levels.iter_mut().zip(has_child) {
            level.mark = *random.pick(&["", if has_child { "*1" } else { "*0" }]);
        }
    }
    levels
}

/// One of the last, one of the first, or any.
fn near_or_far(random: &mut Random, places: &[usize]) -> Option<usize> {
    let few = places.len().min(3);
    let part = *random.pick(&[&places[places.len() - few..], &places[..few], places]);
    part.get(random.below(part.len())).copied()
}

/// Makes something wrong, or nearly so, in one of eight ways: at any level but the first, often at one of the last, or at one
/// that fits.
fn damage(random: &mut Random, levels: &mut [Level], kind: u64, nobody: String) {
    let last = levels.len() - 1;
    let far = if random.chance(50) { last } else { last.min(20) };
    let at = last - random.below(far);
    match kind {
        0 => levels[at].name = levels[0].name.clone(),
        1 => levels[at].name = random.pick(&levels[..at]).name.clone(),
        2 => levels[at].parent = nobody,
        3 => levels[at].parent = random.pick(&levels[at..]).name.clone(),
        4 => levels[at].parent = nearly(random, levels),
        5 => rename(random, levels, at),
        6 => shut(random, levels),
        _ => leave_waiting(random, levels),
    }
}

/// A level's name with one byte more or fewer, at the front or at the back.
fn nearly(random: &mut Random, levels: &[Level]) -> String {
    let mut name = random.pick(levels).name.clone();
    let more = name.len() == 1 || (name.len() < LONGEST && random.chance(50));
    let place = if random.chance(50) { 0 } else { name.len() - usize::from(!more) };
    if more {
        name.insert(place, char::from(*random.pick(LETTERS)));
    } else {
        name.remove(place);
    }
    name
}

/// Gives a level nearly the name of another, which its children know.
fn rename(random: &mut Random, levels: &mut [Level], at: usize) {
    let new = nearly(random, levels);
    let old = std::mem::replace(&mut levels[at].name, new.clone());
    levels.iter_mut().filter(|level| level.parent == old).for_each(|level| level.parent = new.clone());
}

/// Marks a level 0 that has a child, if any has one.
fn shut(random: &mut Random, levels: &mut [Level]) {
    let parents: Vec<String> =
        levels.iter().map(|level| level.parent.clone()).filter(|parent| !parent.is_empty()).collect();
    if !parents.is_empty() {
        let parent = random.pick(&parents);
        levels.iter_mut().filter(|level| level.name == *parent).for_each(|level| level.mark = "*0");
    }
}

/// Marks a level 1 that may have children and has none, if there is one.
fn leave_waiting(random: &mut Random, levels: &mut [Level]) {
    let parents: HashSet<String> = levels.iter().map(|level| level.parent.clone()).collect();
    let mut childless: Vec<&mut Level> = levels
        .iter_mut()
        .filter(|level| !codes_under(level.code).is_empty() && !parents.contains(&level.name))
        .collect();
    if !childless.is_empty() {
        let at = random.below(childless.len());
        childless[at].mark = "*1";
    }
}
