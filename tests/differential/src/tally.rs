//! Counting what was compared, and telling of what differs.

use crate::outcome::Sizes;
use crate::sides::{
    hashed_read, library_how, library_lookup, library_read, reference_lookup, reference_read,
};
use crate::walks;
use reference::{LineEnds, Profile, Separators};

/// The answers are 0 to 19 and 24.
const ANSWERS: usize = 25;

/// The answers of a walk.
const WALK_ANSWERS: [u64; 3] = [0, 20, 21];

/// How many differences are told of; the others are only counted.
const TOLD: usize = 10;

/// How often each answer was given by each profile.
#[derive(Default)]
struct Answers {
    reports: [u64; ANSWERS],
    replies: [u64; ANSWERS],
}

impl Answers {
    /// Counts one answer by that profile.
    fn count(&mut self, profile: Profile, answer: u64) {
        let counts = match profile {
            Profile::Report => &mut self.reports,
            Profile::Reply => &mut self.replies,
        };
        counts[(answer as usize).min(ANSWERS - 1)] += 1;
    }

    /// Prints how many there are, and how many of each, in a line for each profile.
    fn print(&self, name: &str) {
        for (profile, counts) in [("reports", self.reports), ("replies", self.replies)] {
            print!("{name} of {profile} {}; by answer", counts.iter().sum::<u64>());
            for (number, count) in counts.iter().enumerate().filter(|(_, count)| **count > 0) {
                print!(" {number}:{count}");
            }
            println!();
        }
    }
}

/// What was compared so far.
#[derive(Default)]
pub struct Tally {
    readings: Answers,
    /// Readings with a hash, of reports with many levels.
    hashed: Answers,
    rewritings: Answers,
    lookups: u64,
    /// Pairs of lookups before and behind a rewriting.
    kept: u64,
    /// Number checks, and how many of them had a number.
    numbers: [u64; 2],
    /// How often each answer was given by a walk.
    walks: [u64; WALK_ANSWERS.len()],
    differences: usize,
}

/// Every choice about line ends with every profile.
pub fn every_how() -> impl Iterator<Item = (LineEnds, Profile)> {
    Profile::BOTH.into_iter().flat_map(|profile| LineEnds::BOTH.map(|line_ends| (line_ends, profile)))
}

/// The bytes at a place, if it lies within the segment.
fn bytes_at(segment: &[u8], (start, length): (u64, u64)) -> Option<&[u8]> {
    segment.get(start as usize..)?.get(..length as usize)
}

impl Tally {
    /// Compares one reading by each choice about line ends and each profile, with these bits besides, and where it is accepted
    /// the walk of its levels.
    pub fn read(&mut self, name: &str, input: &[u8], set: Separators, unnamed: u64, sizes: Sizes) {
        for (line_ends, profile) in every_how() {
            let how = library_how(line_ends, profile, unnamed);
            let mut one = library_read(input, set, how, sizes);
            self.readings.count(profile, one.answer[0]);
            if let Some(difference) = one.difference(&reference_read(input, set, (line_ends, profile), sizes))
            {
                self.differs(name, &difference, input, &format!("{set:?}, how {how:#x}, {sizes:?}"));
            } else if one.answer[0] == 0 {
                walks::of_report(self, name, input, &mut one);
            }
        }
    }

    /// Compares one reading of the independent reader with its reading with a hash, by each profile.
    pub fn read_hashed(&mut self, name: &str, input: &[u8], set: Separators, sizes: Sizes) {
        for profile in Profile::BOTH {
            let how = (LineEnds::Skipped, profile);
            let one = hashed_read(input, set, how, sizes);
            self.hashed.count(profile, one.answer[0]);
            if let Some(difference) = one.difference(&reference_read(input, set, how, sizes)) {
                self.differs(name, &difference, input, &format!("a hash, {set:?}, {how:?}, {sizes:?}"));
            }
        }
    }

    /// Tells of each of these answers that no reading of a report with a hash gave.
    pub fn expect_hashed(&mut self, answers: &[usize]) {
        for answer in answers {
            if self.hashed.reports[*answer] == 0 {
                self.differs(
                    "readings with a hash",
                    &format!("none has answer {answer}"),
                    &[],
                    "all of them",
                );
            }
        }
    }

    /// Compares one lookup.
    pub fn look_up(&mut self, name: &str, bytes: &[u8], element: u8, component: u8, number: u64, part: u64) {
        let one = library_lookup(bytes, element, component, number, part);
        let two = reference_lookup(bytes, element, component, number, part);
        self.lookups += 1;
        if one != two {
            let given = format!("separators {element} and {component}, element {number}, component {part}");
            self.differs(name, &format!("spans {one:?} and {two:?}"), bytes, &given);
        }
    }

    /// Compares two lookups of the library with the same numbers, in a segment and in what a rewriting made of it: the same
    /// place, and for a component the same bytes.
    pub fn keep(&mut self, name: &str, segments: [&[u8]; 2], sets: [Separators; 2], number: u64, part: u64) {
        let places = [0, 1].map(|at| {
            let Separators { element, component, .. } = sets[at];
            library_lookup(segments[at], element, component, number, part)
        });
        let [one, two] = [0, 1].map(|at| bytes_at(segments[at], places[at]));
        self.kept += 1;
        if places[0] != places[1] || one.is_none() || (part > 0 && one != two) {
            let difference =
                format!("spans {places:?} before and behind a rewriting, bytes {one:?} and {two:?}");
            let given = format!("{sets:?}, element {number}, component {part}");
            self.differs(name, &difference, segments[0], &given);
        }
    }

    /// Counts one rewriting by that profile with that answer.
    pub fn rewritten(&mut self, profile: Profile, answer: u64) {
        self.rewritings.count(profile, answer);
    }

    /// Counts one number check, of a number or of a text that is none.
    pub fn checked(&mut self, fit: bool) {
        self.numbers[0] += 1;
        self.numbers[1] += u64::from(fit);
    }

    /// Counts one walk with that answer.
    pub fn walked(&mut self, answer: u64) {
        let place = WALK_ANSWERS.iter().position(|given| *given == answer).expect("an answer of a walk");
        self.walks[place] += 1;
    }

    /// Tells of each answer that no walk gave.
    pub fn expect_walks(&mut self) {
        for (answer, count) in WALK_ANSWERS.into_iter().zip(self.walks) {
            if count == 0 {
                self.differs("walks", &format!("none has answer {answer}"), &[], "all of them");
            }
        }
    }

    /// Tells of a difference.
    pub fn differs(&mut self, name: &str, difference: &str, input: &[u8], given: &str) {
        self.differences += 1;
        if self.differences <= TOLD {
            println!("DIFFERENCE in {name}: {difference}");
            println!("  given {given}");
            println!("  input \"{}\"", input[..input.len().min(4000)].escape_ascii());
        }
    }

    /// How many differences there are.
    pub fn differences(&self) -> usize {
        self.differences
    }

    /// Prints what was compared.
    pub fn print(&self) {
        self.readings.print("readings");
        self.hashed.print("readings with a hash");
        self.rewritings.print("rewritings");
        println!("lookups {}; before and behind a rewriting {}", self.lookups, self.kept);
        println!("numbers {}; fit {}", self.numbers[0], self.numbers[1]);
        print!("walks {}; by answer", self.walks.iter().sum::<u64>());
        for (answer, count) in WALK_ANSWERS.into_iter().zip(self.walks) {
            print!(" {answer}:{count}");
        }
        println!();
        println!("differences {}", self.differences);
    }
}
