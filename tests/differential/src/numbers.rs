//! Number checks by both sides: texts of every kind, and all elements and components of generated reports.

use crate::lent::Lent;
use crate::tally::Tally;
use reference::generator::{number_text, Case, Random};

/// Fit or unfit, value, places, exponent, and whether that is written.
const NUMBERS: usize = 5;

/// The library takes any number that has no more digits than this.
const MOST_DIGITS: usize = 15;

/// So many generated texts come with each report.
const TEXTS: usize = 6;

/// The texts of a report's elements come from so many of its first bytes.
const REPORT_BYTES: usize = 4000;

/// What every short word is made of.
const LETTERS: &[u8] = b"-.05Ee+";
/// How long the longest of them are.
const LONGEST_WORD: usize = 6;

extern "C" {
    fn stormhlaw_number(text: *const u8, text_length: usize, number: *mut i64);
}

/// The library's check, with what it wrote between guard words.
fn library(text: &[u8]) -> Lent<i64> {
    let mut number = Lent::new(NUMBERS);
    // SAFETY: the text lives until the call returns, and five numbers are lent for it alone.
    unsafe { stormhlaw_number(text.as_ptr(), text.len(), number.part().as_mut_ptr()) };
    number
}

/// Compares one number check.
fn compare(tally: &mut Tally, name: &str, text: &[u8]) {
    let mut one = library(text);
    let two = reference::number(text, 1, MOST_DIGITS).numbers();
    tally.checked(two[0] == 1);
    if !one.guarded() {
        tally.differs(name, "the first wrote outside of what was lent", text, "a number check");
    } else if one.part() != two {
        tally.differs(name, &format!("numbers {:?} and {two:?}", one.part()), text, "a number check");
    }
}

/// Some generated texts, and all elements and components of the case's report, empty ones too.
pub fn generated(tally: &mut Tally, name: &str, case: &Case) {
    let mut random = Random::new(case.seed ^ 0x06);
    for _ in 0..TEXTS {
        compare(tally, name, &number_text(&mut random));
    }
    let input = &case.input[..case.input.len().min(REPORT_BYTES)];
    for text in input.split(|byte| case.separators.holds(*byte)) {
        compare(tally, name, text);
    }
}

/// Every short word, every byte at every place of a number, and numbers around the most digits.
pub fn fixed(tally: &mut Tally) {
    words(tally, &mut Vec::new());
    bytes(tally, b"-5.25E-07");
    bytes(tally, b"999999999999999E9");
    for digits in 1..=MOST_DIGITS + 3 {
        around(tally, digits);
    }
    compare(tally, "zeros", &[b'0'; 100_000]);
}

/// Every word that begins with this one.
fn words(tally: &mut Tally, word: &mut Vec<u8>) {
    compare(tally, "words", word);
    if word.len() == LONGEST_WORD {
        return;
    }
    for letter in LETTERS {
        word.push(*letter);
        words(tally, word);
        word.pop();
    }
}

/// Every byte at every place of the text, in the place of the one there and before it.
fn bytes(tally: &mut Tally, text: &[u8]) {
    for at in 0..text.len() {
        for byte in 0..=255 {
            let mut other = text.to_vec();
            other[at] = byte;
            compare(tally, "bytes", &other);
            other.insert(at + 1, text[at]);
            compare(tally, "bytes", &other);
        }
    }
}

/// So many digits with the point at every place, and with none.
fn around(tally: &mut Tally, digits: usize) {
    let all: String = "9051728463".chars().cycle().take(digits).collect();
    let pointed = (0..=digits).map(|place| format!("{}.{}", &all[..place], &all[place..]));
    for figures in pointed.chain([all.clone()]) {
        for sign in ["", "-", "+", "--"] {
            for ending in ["", "E7", "E-7", "E07", "E-99", "E", "E-", "E123", "e7", "E+7", "E7-", "."] {
                compare(tally, "digits", format!("{sign}{figures}{ending}").as_bytes());
            }
        }
    }
}
