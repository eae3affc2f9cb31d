//! Type R (document 02, Item 6): both number checks against each other, against examples told by hand and
//! against arithmetic on the text; and both readers against the check.

mod both;
mod words;

use reference::generator::{number_text, report, Random};
use reference::plain::{forms, number_plain};
use reference::vectors::numbers::{FIT, UNFIT};
use reference::vectors::text::in_fault;
use reference::vectors::{groups, Case};
use reference::{number, LineEnds, Number, Profile, Separators, LEVEL_NUMBERS, SEGMENT_NUMBERS};
use std::collections::BTreeSet;
use words::words;

/// A number has at most so many digits.
const MOST: usize = 15;

/// The number by both checks, which must agree; an unfit one is all zeros.
fn both_numbers(text: &[u8], least: usize, most: usize) -> Number {
    let fast = number(text, least, most);
    let told = || format!("\"{}\", {least} to {most}", text.escape_ascii());
    assert_eq!(fast, number_plain(text, least, most), "{}", told());
    assert!(fast.fit || fast.numbers() == [0; 5], "{}", told());
    fast
}

/// The number with the bounds of NCA04.
fn of(text: &str) -> Number {
    both_numbers(text.as_bytes(), 1, MOST)
}

#[test]
fn examples_of_the_request() {
    assert_eq!(of("-0.50").numbers(), [1, -50, 2, 0, 0]);
    assert_eq!(of("-0").numbers(), [1, 0, 0, 0, 0]);
    assert_eq!(of("5E-07").numbers(), [1, 5, 0, -7, 1]);
    assert_eq!(of("5E-0").numbers(), [1, 5, 0, 0, 1]);
    assert_eq!(of("5E+1").numbers(), [0; 5]);
    let text = of("-12.5E9");
    assert_eq!(text, Number { fit: true, value: -125, places: 1, exponent: 9, written: true });
    assert_eq!(of("12.5E"), Number::UNFIT);
}

#[test]
fn examples_told_by_hand_are_given_and_are_in_the_vectors() {
    for (text, told) in FIT {
        assert_eq!(of(text).numbers()[1..], told, "{text}");
        assert!(of(text).fit, "{text}");
    }
    for text in UNFIT {
        assert_eq!(of(text), Number::UNFIT, "{text}");
    }
    let group = groups().into_iter().find(|group| group.name == "numbers").unwrap();
    let has = |wanted: &str| {
        group.cases.iter().any(|told| match &told.case {
            Case::Number { text, least: 1, most: MOST } => text == wanted.as_bytes(),
            _ => false,
        })
    };
    assert!(FIT.iter().map(|(text, _)| *text).chain(UNFIT).all(has));
    println!("{} cases", group.cases.len());
}

#[test]
fn both_agree_on_every_short_word() {
    let mut fit = BTreeSet::new();
    for word in words(b"-.05Ee+", 7) {
        if both_numbers(&word, 1, MOST).fit {
            fit.insert(form_of(&word));
        }
    }
    let short: BTreeSet<String> = forms().keys().filter(|form| form.len() <= 7).cloned().collect();
    assert_eq!(fit, short);
}

/// The text with a 9 for every digit.
fn form_of(text: &[u8]) -> String {
    text.iter().map(|byte| if byte.is_ascii_digit() { '9' } else { char::from(*byte) }).collect()
}

/// So many digits with the point at every place or with none, signed and not, with every form of exponent.
fn long_texts(digits: usize) -> Vec<String> {
    let all: String = "9051728463".chars().cycle().take(digits).collect();
    let pointed = (0..=digits).map(|place| format!("{}.{}", &all[..place], &all[place..]));
    let unsigned: Vec<String> = [all.clone()].into_iter().chain(pointed).collect();
    let exponents = ["", "E7", "E-7", "E07", "E-99", "E", "E-", "E123", "e7", "E+7", "E7-", "E.7", "."];
    let mut texts = Vec::new();
    for sign in ["", "-", "+", "--"] {
        for exponent in exponents {
            texts.extend(unsigned.iter().map(|figures| format!("{sign}{figures}{exponent}")));
        }
    }
    texts
}

#[test]
fn sixteen_digits_are_too_many_wherever_the_point_stands() {
    for digits in 13..=18 {
        let fit = long_texts(digits).iter().filter(|text| of(text).fit).count();
        // Two signs and five endings that are exponents or none, with the point at every place or without it;
        // and the ending that is a point, which digits without one take.
        let few = 2 * 5 * (digits + 2) + 2;
        assert_eq!(fit, if digits <= MOST { few } else { 0 }, "{digits} digits");
    }
}

#[test]
fn every_form_is_fit_and_no_byte_more() {
    for form in forms().keys() {
        assert!(of(form).fit, "{form}");
        for at in 0..=form.len() {
            for more in *b"9-.E+e " {
                let mut text = form.as_bytes().to_vec();
                text.insert(at, more);
                let known = forms().contains_key(&form_of(&text));
                assert_eq!(both_numbers(&text, 1, MOST).fit, known, "{}", text.escape_ascii());
            }
        }
    }
}

#[test]
fn every_byte_at_every_place() {
    for whole in ["5", "-5.25", "-.5E-07", "12E3", "5.E1", "999999999999999E99"] {
        for at in 0..whole.len() {
            for byte in 0..=255 {
                let mut text = whole.as_bytes().to_vec();
                text[at] = byte;
                let fit = both_numbers(&text, 1, MOST).fit;
                assert!(!fit || b"0123456789-.E".contains(&byte));
            }
        }
    }
}

/// How many digits count for length: those before the exponent.
fn counted(text: &str) -> usize {
    text.split('E').next().unwrap().bytes().filter(u8::is_ascii_digit).count()
}

#[test]
fn every_least_and_most() {
    let long: Vec<String> = (1..=17).flat_map(|digits| long_texts(digits).into_iter().step_by(7)).collect();
    for text in long.iter().map(String::as_str).chain(FIT.map(|(text, _)| text)).chain(UNFIT) {
        let free = of(text);
        for least in 0..=17 {
            for most in 0..=17 {
                let within = least <= counted(text) && counted(text) <= most;
                let wanted = if within { free } else { Number::UNFIT };
                assert_eq!(both_numbers(text.as_bytes(), least, most), wanted, "{text}, {least} to {most}");
            }
        }
        assert_eq!(both_numbers(text.as_bytes(), 0, usize::MAX), free);
        assert_eq!(both_numbers(text.as_bytes(), usize::MAX, usize::MAX), Number::UNFIT);
    }
}

/// Numbers are compared as whole ones, scaled by this power of ten.
const SCALE: i64 = 120;

/// What the five numbers stand for, value * 10^(exponent - places), scaled: the sign and the digits.
fn meant(number: Number) -> (bool, String) {
    let [_, value, places, exponent, _] = number.numbers();
    let zeros = usize::try_from(SCALE + exponent - places).unwrap();
    let digits = format!("{}{}", value.unsigned_abs(), "0".repeat(zeros));
    (value < 0, digits.trim_start_matches('0').to_string())
}

/// What the text says, scaled: its digits are laid out around a point, and the exponent moves that point one
/// place at a time.
fn said(text: &str) -> (bool, String) {
    let (figures, exponent) = text.split_once('E').unwrap_or((text, ""));
    let unsigned = figures.trim_start_matches('-');
    let (whole, fraction) = unsigned.split_once('.').unwrap_or((unsigned, ""));
    let (mut before, mut behind) = (whole.to_string(), fraction.to_string());
    let steps: usize = exponent.trim_start_matches('-').parse().unwrap_or(0);
    for _ in 0..steps {
        if exponent.starts_with('-') {
            behind.insert(0, before.pop().unwrap_or('0'));
        } else {
            let next = if behind.is_empty() { '0' } else { behind.remove(0) };
            before.push(next);
        }
    }
    while behind.len() < SCALE as usize {
        behind.push('0');
    }
    let digits = (before + &behind).trim_start_matches('0').to_string();
    (!digits.is_empty() && text.starts_with('-'), digits)
}

#[test]
fn the_numbers_stand_for_what_the_text_says() {
    let by_hand = FIT.iter().map(|(text, _)| text.to_string());
    let long = (13..=15).flat_map(long_texts).filter(|text| of(text).fit);
    let mut random = Random::new(66);
    let generated = (0..40_000).map(|_| number_text(&mut random));
    let made = words(b"-.05E", 7).into_iter().chain(generated).map(|text| String::from_utf8(text).unwrap());
    let mut count = 0;
    for text in by_hand.chain(long).chain(made.filter(|text| of(text).fit)) {
        assert_eq!(meant(of(&text)), said(&text), "{text}");
        count += 1;
    }
    println!("{count} numbers");
    assert!(count > 10_000);
    assert_eq!(said("-0.50"), (true, format!("5{}", "0".repeat(119))));
    assert_eq!(said("12E3"), (false, format!("12{}", "0".repeat(123))));
}

#[test]
fn moving_the_point_and_the_exponent_together_changes_nothing() {
    for digits in ["5", "25", "00120", "123456789012345", "900000000000000"] {
        for exponent in [-80, -9, 0, 3, 80] {
            let text = |place: usize| {
                let (whole, fraction) = digits.split_at(place);
                format!("-{whole}.{fraction}E{}", exponent - place as i64)
            };
            let first = of(&text(0));
            for place in 0..=digits.len() {
                let moved = of(&text(place));
                assert_eq!(moved.value, first.value);
                assert_eq!(moved.places, digits.len() - place);
                assert_eq!(meant(moved), meant(first), "{}", text(place));
            }
        }
    }
    assert_eq!(meant(of("5")), meant(of("0.05E02")));
    assert_eq!(meant(of("5")), meant(of("50E-1")));
    assert_ne!(meant(of("5")), meant(of("50E-2")));
    assert_ne!(meant(of("5")), meant(of("-5")));
}

/// The answer's number and element for a report with this NCA, by both readers and by both profiles, which it
/// keeps to.
fn answered(nca: &str) -> (u64, u64) {
    let rooms = (SEGMENT_NUMBERS * 6, LEVEL_NUMBERS);
    let input = in_fault(&[nca]);
    let read =
        |profile| both::given(input.as_bytes(), Separators::STANDARD, (LineEnds::Skipped, profile), rooms);
    let [report, reply] = Profile::BOTH.map(read);
    assert_eq!(report, reply, "{nca}");
    match report {
        both::Outcome { answer: [0, 6, 1, _], .. } => (0, 0),
        both::Outcome { answer: [number, 5, _, element], .. } => (number, element),
        other => panic!("{nca}: {other:?}"),
    }
}

#[test]
fn both_readers_take_a_quantity_where_it_is_a_number() {
    let short = words(b"-.05Ee+", 4).into_iter().map(|word| String::from_utf8(word).unwrap());
    let long = (9..=16).flat_map(|digits| long_texts(digits).into_iter().step_by(5));
    for text in short.chain(long).filter(|text| !text.is_empty()) {
        let wanted = |most: usize, element: u64| match both_numbers(text.as_bytes(), 1, most).fit {
            true => (0, 0),
            false => (10, element),
        };
        assert_eq!(answered(&format!("NCA**R1**{text}*EA")), wanted(15, 4), "{text}");
        assert_eq!(answered(&format!("NCA**R1**5*EA:{text}")), wanted(15, 5), "{text}");
        assert_eq!(answered(&format!("NCA**R1**5*EA::{text}:EA")), wanted(10, 5), "{text}");
        assert_eq!(answered(&format!("NCA**R1**5*EA::::{text}:5")), wanted(15, 5), "{text}");
        assert_eq!(answered(&format!("NCA**R1**5*EA:5:5:EA:5:{text}")), wanted(10, 5), "{text}");
    }
}

#[test]
fn generated_texts_are_of_every_kind() {
    let mut random = Random::new(6);
    let mut came = BTreeSet::new();
    let mut fit = 0;
    for _ in 0..300_000 {
        let text = number_text(&mut random);
        let given = both_numbers(&text, 1, MOST);
        both_numbers(&text, random.below(17), random.below(17));
        if given.fit {
            came.insert(form_of(&text));
            fit += 1;
        }
    }
    println!("{fit} fit, {} forms of {}", came.len(), forms().len());
    assert!((150_000..250_000).contains(&fit));
    assert_eq!(came.len(), forms().len());
}

/// The texts of NCA04 and of the numbers in NCA05, wherever a report has both.
fn quantities(input: &[u8], set: Separators) -> Vec<Vec<u8>> {
    let mut texts = Vec::new();
    for segment in input.split(|byte| *byte == set.terminator) {
        let pieces: Vec<&[u8]> = segment.split(|byte| *byte == set.element).collect();
        if let [b"NCA", _, _, _, four, five] = pieces[..] {
            let components = five.split(|byte| *byte == set.component).enumerate();
            texts.push(four.to_vec());
            texts.extend(components.filter(|(at, _)| at % 3 > 0).map(|(_, text)| text.to_vec()));
        }
    }
    texts.into_iter().filter(|text| !text.is_empty()).collect()
}

/// The form of a text with one 9 for a whole number before its exponent, or for digits one behind the other.
fn kind_of(text: &[u8]) -> String {
    let form = form_of(text);
    let (figures, exponent) = form.split_at(form.find(['E', 'e']).unwrap_or(form.len()));
    if number(figures.as_bytes(), 1, MOST).fit {
        return format!("9{exponent}");
    }
    let mut kind: Vec<char> = figures.chars().collect();
    kind.dedup_by(|one, other| *one == '9' && *other == '9');
    kind.into_iter().chain(exponent.chars()).collect()
}

#[test]
fn generated_reports_have_numbers_of_every_kind() {
    let (mut fit, mut with_exponent, mut with_fifteen, mut too_long) = (0, 0, 0, 0);
    let mut broken = BTreeSet::new();
    for seed in 0..60_000 {
        let case = report(seed);
        for text in quantities(&case.input, case.separators) {
            let given = both_numbers(&text, 1, MOST);
            if case.valid && given.fit {
                fit += 1;
                with_exponent += usize::from(given.written);
                with_fifteen += usize::from(given.value.unsigned_abs() >= 100_000_000_000_000);
            } else if !given.fit {
                broken.insert(kind_of(&text));
                too_long += usize::from(text.iter().filter(|byte| byte.is_ascii_digit()).count() > MOST);
            }
        }
    }
    println!("{fit} in valid reports, {with_exponent} with an exponent, {with_fifteen} of fifteen digits");
    println!("{} kinds of unfit ones, {too_long} with sixteen digits or more", broken.len());
    assert!(fit > 15_000 && with_exponent > fit / 5 && with_fifteen > fit / 50 && too_long > 100);
    for kind in [
        "9E9E9", "9e9", "9e-99", "9E999", "9E-999", "9E+9", "9E-+9", "9EE9", "9E.9", "9E9.", "9E9-", "9E9E",
        "9 E9", "9E", "9E-", "9e", "E9", "-E9", ".E9", "-.E9", "+9", "--9", "9-", "9-9", "9.9.9", "-", ".",
        "-.",
    ] {
        assert!(broken.contains(kind), "{kind} never came");
    }
}
