//! One case: how it is written into a file, and what is printed for it.

use crate::{lookup_span, number, read, rewrite, walk, Answer, LineEnds, Number, Profile, Separators};

/// How a report is read: the byte of a case that says so. Only its two lowest bits are looked at.
#[derive(Clone, Copy, Debug, PartialEq, Eq)]
pub struct How(pub u8);

impl How {
    /// Line ends are skipped.
    pub const DEFAULT: How = How(0);
    /// Line ends belong to the segment that they stand before.
    pub const STRICT: How = How(1);
    /// By the profile of replies, line ends skipped.
    pub const REPLY: How = How(2);
    /// By the profile of replies, strictly.
    pub const STRICT_REPLY: How = How(3);

    /// What becomes of line ends.
    pub const fn line_ends(self) -> LineEnds {
        match self.0 & 1 {
            0 => LineEnds::Skipped,
            _ => LineEnds::Strict,
        }
    }

    /// The profile.
    pub const fn profile(self) -> Profile {
        match self.0 & 2 {
            0 => Profile::Report,
            _ => Profile::Reply,
        }
    }
}

/// One case.
#[derive(Clone, Debug)]
pub enum Case {
    /// Kind 1.
    Read {
        /// The lent bytes.
        input: Vec<u8>,
        /// The separators.
        separators: Separators,
        /// How it is read.
        how: How,
        /// How many numbers each table has, segments first.
        rooms: (usize, usize),
    },
    /// Kind 2, and kind 6 by the profile of replies.
    Rewrite {
        /// The lent bytes.
        input: Vec<u8>,
        /// The separators to read with.
        separators: Separators,
        /// The profile.
        profile: Profile,
        /// The separators to write with.
        new: Separators,
        /// How many numbers each table has, segments first.
        rooms: (usize, usize),
        /// How many bytes the output has.
        output: usize,
    },
    /// Kind 3.
    Lookup {
        /// The segment's bytes.
        segment: Vec<u8>,
        /// The element separator.
        element: u8,
        /// The component separator.
        component: u8,
        /// The element asked for, 0 for the tag.
        number: usize,
        /// The component asked for, 0 for the whole element.
        part: usize,
    },
    /// Kind 4.
    Long {
        /// The bytes that the input starts with.
        input: Vec<u8>,
        /// The separators.
        separators: Separators,
        /// How it is read.
        how: How,
        /// How many numbers each table has, segments first.
        rooms: (usize, usize),
        /// How long the input is: behind its first bytes stand bytes `~`.
        length: usize,
    },
    /// Kind 5.
    Number {
        /// The text to check.
        text: Vec<u8>,
        /// The least number of digits.
        least: usize,
        /// The greatest number of digits.
        most: usize,
    },
    /// Kind 7.
    Walk {
        /// The level table, one byte a number; 255 stands for the largest number.
        levels: Vec<u8>,
        /// How many levels are to be walked.
        count: usize,
        /// How many numbers the output has.
        output: usize,
    },
}

/// A case, with the answer's four numbers where they are known without any reader.
#[derive(Clone, Debug)]
pub struct Told {
    /// The case.
    pub case: Case,
    /// The four numbers, if told. A walk has two, and zeros stand behind them.
    pub answer: Option<[u64; 4]>,
}

impl Told {
    /// The same reading in that way.
    pub fn by(mut self, choice: How) -> Told {
        match &mut self.case {
            Case::Read { how, .. } | Case::Long { how, .. } => *how = choice,
            other => panic!("no reading: {other:?}"),
        }
        self
    }
}

impl From<Case> for Told {
    fn from(case: Case) -> Told {
        Told { case, answer: None }
    }
}

/// What a table holds before a case.
pub fn lent_numbers(first: u64, length: usize) -> Vec<u64> {
    (0..length as u64).map(|at| first + at).collect()
}

/// What an output holds before a case.
pub fn lent_bytes(length: usize) -> Vec<u8> {
    (0..length).map(|at| ((at * 7 + 3) % 256) as u8).collect()
}

/// The numbers that the bytes of a level table stand for.
pub fn table_numbers(bytes: &[u8]) -> Vec<u64> {
    bytes.iter().map(|byte| if *byte == u8::MAX { u64::MAX } else { u64::from(*byte) }).collect()
}

/// The low bytes of a number, the lowest first.
fn little(number: usize, bytes: usize) -> Vec<u8> {
    assert!(number < 1 << (8 * bytes), "{number} does not fit in {bytes} bytes");
    number.to_le_bytes()[..bytes].to_vec()
}

impl Case {
    /// A reading by the default.
    pub fn read(input: Vec<u8>, separators: Separators, rooms: (usize, usize)) -> Case {
        Case::Read { input, separators, how: How::DEFAULT, rooms }
    }

    /// A reading by the default of an input that is filled up to this length.
    pub fn long(input: Vec<u8>, separators: Separators, rooms: (usize, usize), length: usize) -> Case {
        Case::Long { input, separators, how: How::DEFAULT, rooms, length }
    }

    /// The header of sixteen bytes and the input.
    pub fn encode(&self, file: &mut Vec<u8>) {
        let none = Separators::new(0, 0, 0);
        let length = |bytes: &[u8]| Separators::new(bytes[0], bytes[1], bytes[2]);
        let (kind, old, new, pair, more, input) = match self {
            Case::Read { input, separators, how, rooms } => {
                (1, *separators, none, *rooms, usize::from(how.0), input)
            }
            Case::Rewrite { input, separators, profile, new, rooms, output } => {
                let kind = if *profile == Profile::Reply { 6 } else { 2 };
                (kind, *separators, *new, *rooms, *output, input)
            }
            Case::Lookup { segment, element, component, number, part } => {
                (3, Separators::new(*element, *component, 0), none, (*number, *part), 0, segment)
            }
            Case::Long { input, separators, how, rooms, length: bytes } => {
                (4, *separators, length(&little(*bytes, 3)), *rooms, usize::from(how.0), input)
            }
            Case::Number { text, least, most } => (5, none, none, (*least, *most), 0, text),
            Case::Walk { levels, count, output } => (7, none, none, (*count, *output), 0, levels),
        };
        file.extend([kind, old.element, old.component, old.terminator]);
        file.extend([new.element, new.component, new.terminator]);
        file.extend(little(pair.0, 2));
        file.extend(little(pair.1, 2));
        file.extend(little(more, 2));
        file.extend(little(input.len(), 3));
        file.extend(input);
    }

    /// Runs the case and prints what comes of it.
    pub fn print(&self, out: &mut String) {
        match self {
            Case::Read { input, separators, how, rooms } => {
                print_reading(out, input, *separators, *how, *rooms);
            }
            Case::Rewrite { input, separators, profile, new, rooms, output } => {
                let mut tables = Tables::lent(*rooms);
                let mut output = lent_bytes(*output);
                let (segments, levels) = (&mut tables.segments, &mut tables.levels);
                let answer = rewrite(input, *separators, *profile, *new, segments, levels, &mut output);
                print_answer(out, answer, &tables);
                print_line(out, "output", &output);
            }
            Case::Lookup { segment, element, component, number, part } => {
                print_span(out, lookup_span(segment, *element, *component, *number, *part));
            }
            Case::Long { input, separators, how, rooms, length } => {
                let mut long = input.clone();
                long.resize(*length, b'~');
                print_reading(out, &long, *separators, *how, *rooms);
            }
            Case::Number { text, least, most } => print_number(out, number(text, *least, *most)),
            Case::Walk { levels, count, output } => {
                let mut order = lent_numbers(900_000, *output);
                let [number, level] = walk(&table_numbers(levels), *count as u64, &mut order).numbers();
                out.push_str(&format!("{number} {level}\n"));
                print_line(out, "order", &order);
            }
        }
    }
}

/// The two lent tables.
struct Tables {
    segments: Vec<u64>,
    levels: Vec<u64>,
}

impl Tables {
    fn lent(rooms: (usize, usize)) -> Tables {
        Tables { segments: lent_numbers(700_000, rooms.0), levels: lent_numbers(800_000, rooms.1) }
    }
}

/// Reads and prints what comes of it.
fn print_reading(out: &mut String, input: &[u8], separators: Separators, how: How, rooms: (usize, usize)) {
    let mut tables = Tables::lent(rooms);
    let (segments, levels) = (&mut tables.segments, &mut tables.levels);
    let answer = read(input, separators, how.line_ends(), how.profile(), segments, levels);
    print_answer(out, answer, &tables);
}

fn print_answer(out: &mut String, answer: Answer, tables: &Tables) {
    let [number, first, second, third] = answer.numbers();
    out.push_str(&format!("{number} {first} {second} {third}\n"));
    print_line(out, "segments", &tables.segments);
    print_line(out, "levels", &tables.levels);
}

fn print_line<T: ToString>(out: &mut String, name: &str, numbers: &[T]) {
    out.push_str(name);
    for number in numbers {
        out.push(' ');
        out.push_str(&number.to_string());
    }
    out.push('\n');
}

fn print_span(out: &mut String, (start, length): (usize, usize)) {
    out.push_str(&format!("span {start} {length}\n"));
}

fn print_number(out: &mut String, number: Number) {
    print_line(out, "number", &number.numbers());
}
