//! Numbers of type R, fit and broken (document 02, Item 6).

use super::draft::{Draft, Segment, Style};
use super::Random;

const DIGITS: &[u8] = b"0123456789";

/// What a number's text is made of, and what it is easily taken to be.
const LETTERS: &[u8] = b"0123456789055--..EEe+ ";

/// A number with so many digits: some signed, some with a point, some with an exponent.
pub fn with_digits(random: &mut Random, digits: usize) -> Vec<u8> {
    let mut number = figures(random, digits);
    if random.chance(10) {
        let zeros = random.below(digits + 1);
        number[..zeros].fill(b'0');
    }
    if random.chance(40) {
        number.insert(random.below(digits + 1), b'.');
    }
    if random.chance(30) {
        number.insert(0, b'-');
    }
    if random.chance(30) {
        number.extend(exponent(random));
    }
    number
}

fn figures(random: &mut Random, count: usize) -> Vec<u8> {
    (0..count).map(|_| *random.pick(DIGITS)).collect()
}

/// `E`, an optional `-` and one or two digits.
fn exponent(random: &mut Random) -> Vec<u8> {
    let digits = 1 + random.below(2);
    power(random, "E", digits)
}

/// A beginning, an optional `-` and so many digits.
fn power(random: &mut Random, beginning: &str, digits: usize) -> Vec<u8> {
    let minus: &[u8] = if random.chance(50) { b"-" } else { b"" };
    [beginning.as_bytes(), minus, &figures(random, digits)].concat()
}

/// A number broken at one of the places where one can be; most are unfit then. It may have at most so many
/// digits.
pub fn broken(random: &mut Random, number: &[u8], most: usize) -> Vec<u8> {
    let mantissa = number.split(|byte| *byte == b'E').next().unwrap_or_default();
    let digits = 1 + random.below(2);
    let tail = match random.below(20) {
        0 => [exponent(random), exponent(random)].concat(),
        1 => power(random, "e", digits),
        2 => power(random, "E+", digits),
        3 => power(random, "E-+", digits),
        4 => power(random, "E", 3),
        5 => power(random, "EE", digits),
        6 => power(random, "E.", digits),
        7 => power(random, " E", digits),
        8 => {
            [exponent(random), random.pick(&["-", ".", "E", "e", "+", " ", "A"]).as_bytes().to_vec()].concat()
        }
        9 => random.pick(&["E", "E-", "e", "E+", "-", "+", ".", "E.", " "]).as_bytes().to_vec(),
        10 | 11 => return too_long(random, most),
        12 | 13 => return without_digits(random),
        14 => return word(random),
        _ => return inserted(random, number),
    };
    [mantissa, &tail].concat()
}

/// A number with more digits than it may have, often one more.
fn too_long(random: &mut Random, most: usize) -> Vec<u8> {
    let more = *random.pick(&[1, 1, 1, 2, 3, 40]);
    with_digits(random, most + more)
}

/// All that a number may have but its digits.
fn without_digits(random: &mut Random) -> Vec<u8> {
    let mut text = random.pick(&["", "-", ".", "-.", "--", ".."]).as_bytes().to_vec();
    if random.chance(70) {
        text.extend(exponent(random));
    }
    text
}

/// The number with a byte at any place that is mostly out of place there.
fn inserted(random: &mut Random, number: &[u8]) -> Vec<u8> {
    let mut text = number.to_vec();
    let at = random.below(text.len() + 1);
    text.insert(at, *random.pick(b"--..+EEe ,0A"));
    text
}

/// Any short text of a number's letters.
fn word(random: &mut Random) -> Vec<u8> {
    (0..random.below(9)).map(|_| *random.pick(LETTERS)).collect()
}

/// A text for a number check: a number of any length, a broken one, or letters of a number in any order.
pub fn number_text(random: &mut Random) -> Vec<u8> {
    let digits = 1 + random.below(15);
    let number = with_digits(random, digits);
    match random.below(6) {
        0..=2 => number,
        3 => broken(random, &number, 15),
        4 => {
            let around_fifteen = 13 + random.below(5);
            with_digits(random, around_fifteen)
        }
        _ => (0..random.below(24)).map(|_| *random.pick(LETTERS)).collect(),
    }
}

/// Breaks NCA04 or a number of NCA05. False where the report has neither NCA nor NCD.
pub fn damage(random: &mut Random, style: &Style, draft: &mut Draft) -> bool {
    let Some(segment) = measured(random, draft) else {
        return false;
    };
    if random.chance(40) {
        segment[4] = broken(random, &segment[4], 15);
        return true;
    }
    let component = style.separators.component;
    let mut components: Segment = segment[5].split(|byte| *byte == component).map(<[u8]>::to_vec).collect();
    let at = 3 * random.below(components.len().div_ceil(3)) + 1 + random.below(2);
    components.resize(components.len().max(at + 1), Vec::new());
    if components[at].is_empty() {
        components[at] = with_digits(random, 5);
    }
    components[at] = broken(random, &components[at], if at % 3 == 1 { 15 } else { 10 });
    segment[5] = components.join(&component);
    true
}

/// An NCA that has NCA04 and NCA05, which come in where they are missing; where there is no NCA, one comes in
/// behind an NCD.
fn measured<'a>(random: &mut Random, draft: &'a mut Draft) -> Option<&'a mut Segment> {
    let segments = &mut draft.segments;
    let all = |tag: &[u8]| -> Vec<usize> {
        (0..segments.len()).filter(|at| segments[*at][0] == tag && segments[*at].len() <= 6).collect()
    };
    let (measures, faults) = (all(b"NCA"), all(b"NCD"));
    let at = if !measures.is_empty() {
        *random.pick(&measures)
    } else if !faults.is_empty() {
        let behind = *random.pick(&faults) + 1;
        segments.insert(behind, ["NCA", "", "R1"].map(Vec::from).into());
        behind
    } else {
        return None;
    };
    let segment = &mut segments[at];
    if segment.len() < 6 {
        segment.resize(4, Vec::new());
        segment.extend([with_digits(random, 5), b"EA".to_vec()]);
    }
    Some(segment)
}
