//! Reports of levels alone, and the table of how long their reading takes.

use crate::lines::Values;
use crate::race::Race;
use crate::report::{Input, Report};
use crate::sides::{read_hashed, Lent, Side};

/// How many levels there are.
const COUNTS: [usize; 4] = [200, 1_000, 4_096, 20_000];

/// With so many levels, the reader that goes through all of them is not asked.
const MANY: usize = 20_000;

/// How many rounds are timed at most.
const ROUNDS: usize = 10;

/// A report with so many levels.
type Levels = fn(usize) -> Vec<u8>;

/// The reports, each under its name: for the test of a new name, for the search for a level, and for the test of the marks
/// at SE. The last is made against the library, and is left out with many levels.
const REPORTS: [(&str, Levels); 12] = [
    ("new names, up", |count| near(count, up, plain)),
    ("new names, down", |count| near(count, down, plain)),
    ("new names, shuffled", |count| near(count, shuffled, plain)),
    ("far parents, up", |count| far(count, up, plain)),
    ("far parents, down", |count| far(count, down, plain)),
    ("far parents, shuffled", |count| far(count, shuffled, plain)),
    ("far parents, shuffled, alike", |count| far(count, shuffled, alike)),
    ("marked 1, child right behind", marked),
    ("marked 1, children far, up", |count| marked_far(count, up)),
    ("marked 1, children far, down", |count| marked_far(count, down)),
    ("marked 1, children far, shuffled", |count| marked_far(count, shuffled)),
    (AGAINST, |count| near(count, up, of_one_list)),
];

const AGAINST: &str = "new names, all of one list";

/// The numbers from 1 to a count, in an order.
type Order = fn(usize) -> Vec<usize>;

fn up(count: usize) -> Vec<usize> {
    (1..=count).collect()
}

fn down(count: usize) -> Vec<usize> {
    (1..=count).rev().collect()
}

/// In no order, the same in every run.
fn shuffled(count: usize) -> Vec<usize> {
    let (mut numbers, mut values) = (up(count), Values::new());
    for last in (1..count).rev() {
        numbers.swap(last, values.between(0, last));
    }
    numbers
}

/// A number as a name.
fn plain(number: usize) -> String {
    number.to_string()
}

/// A name of twelve bytes that has the first eight and the last in common with all others: a comparison takes long.
fn alike(number: usize) -> String {
    const DIGITS: &[u8; 36] = b"0123456789ABCDEFGHIJKLMNOPQRSTUVWXYZ";
    let digit = |place: usize| char::from(DIGITS[number / place % 36]);
    format!("NAMEALIK{}{}{}E", digit(36 * 36), digit(36), digit(1))
}

/// A name that belongs to the first of the library's lists, as every other such name does: each is compared with all.
fn of_one_list(number: usize) -> String {
    let place = |name: &String| name.bytes().fold(0, |place, byte| (place * 37 + usize::from(byte)) % 512);
    let ends = (0..26 * 26 * 26)
        .map(|end| [end / 676, end / 26 % 26, end % 26].map(|letter| char::from(b'A' + letter as u8)));
    let mut names = ends.map(|end| format!("{number:05}{}", end.iter().collect::<String>()));
    names.find(|name| place(name) == 0).expect("a name of the list")
}

/// Names in an order under one near parent.
fn near(count: usize, order: Order, name: fn(usize) -> String) -> Vec<u8> {
    let mut report = Report::rooted();
    for number in order(count - 1) {
        report.add(&format!("HL*{}*R*I*0", name(number)));
    }
    report.close()
}

/// Names in an order, the first half of them items, the others components of one item each, which is far before them; the
/// items are taken in that order too.
fn far(count: usize, order: Order, name: fn(usize) -> String) -> Vec<u8> {
    let mut report = Report::rooted();
    let names: Vec<String> = order(count - 1).into_iter().map(name).collect();
    let (items, components) = names.split_at(count / 2);
    for item in items {
        report.add(&format!("HL*{item}*R*I"));
    }
    for (component, item) in components.iter().zip(order(items.len())) {
        report.add(&format!("HL*{component}*{}*F*0", items[item - 1]));
    }
    report.close()
}

/// Items marked 1, with a child right behind each.
fn marked(count: usize) -> Vec<u8> {
    let mut report = Report::new();
    for item in 1..=count / 2 {
        report.add(&format!("HL*{item}**I*1"));
        report.add(&format!("HL*C{item}*{item}*F*0"));
    }
    report.close()
}

/// Items marked 1, and behind them all a child for each, which take the items in an order.
fn marked_far(count: usize, order: Order) -> Vec<u8> {
    let mut report = Report::new();
    for item in 1..=count / 2 {
        report.add(&format!("HL*{item}**I*1"));
    }
    for (child, item) in (1..).zip(order(count / 2)) {
        report.add(&format!("HL*C{child}*{item}*F*0"));
    }
    report.close()
}

/// Times the callers' build and the hand-written reader with a hash on an input and prints a line. The other hand-written
/// reader must agree with them.
fn time(input: &Input, library: &Side, by_hand: &Side, rounds: usize, lent: &mut Lent) {
    let mut race = Race::new(vec![library.read, read_hashed]);
    let [_, _, levels, bytes] = race.agreed(input);
    if levels < MANY as u64 {
        Race::new(vec![library.read, by_hand.read]).agreed(input);
    }
    for _ in 0..rounds {
        race.round(input, lent);
    }
    let figures = |best: &f64| format!(" {:>9.3} {:>8.1}", best / 1e6, best / levels as f64);
    let figures: String = race.best().iter().map(figures).collect();
    println!("{:<34} {bytes:>9} {levels:>7}{figures}", input.name);
}

/// Times all reports of levels and prints the table.
pub fn run(sides: &[Side], rounds: usize) {
    let [library, .., by_hand] = sides else { return };
    println!("\nlevels alone, beside a hand-written reader with a hash: milliseconds a reading, nanoseconds a level");
    println!(
        "{:<34} {:>9} {:>7} {:>9} {:>8} {:>9} {:>8}",
        "input", "bytes", "levels", library.name, "ns/level", "hash", "ns/level"
    );
    let mut lent = Lent::new();
    for (name, report) in REPORTS {
        for count in COUNTS.into_iter().filter(|count| name != AGAINST || *count < MANY) {
            time(&Input::new(name, report(count)), library, by_hand, rounds.min(ROUNDS), &mut lent);
        }
    }
}
