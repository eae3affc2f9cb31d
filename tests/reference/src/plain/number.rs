//! Type R from a list of all forms that a number may have (document 02, Item 6).

use crate::Number;
use std::collections::HashMap;
use std::sync::LazyLock;

/// An optional leading `-`.
const SIGNS: [&str; 2] = ["", "-"];

/// An optional exponent: `E`, an optional `-` and one or two digits.
const EXPONENTS: [&str; 5] = ["", "E9", "E99", "E-9", "E-99"];

/// How the digits of a form are divided, and its exponent.
#[derive(Clone, Copy, Debug, PartialEq, Eq)]
pub struct Form {
    /// Digits before the point, or all where there is none.
    pub whole: usize,
    /// Digits behind the point.
    pub places: usize,
    /// The exponent as it is listed; nothing where there is none.
    pub exponent: &'static str,
}

/// Every form of a number, written with a 9 for any digit.
pub fn forms() -> &'static HashMap<String, Form> {
    static FORMS: LazyLock<HashMap<String, Form>> = LazyLock::new(|| {
        let mut forms = HashMap::new();
        for sign in SIGNS {
            for exponent in EXPONENTS {
                for (figures, whole, places) in all_figures() {
                    let form = Form { whole, places, exponent };
                    forms.insert(format!("{sign}{figures}{exponent}"), form);
                }
            }
        }
        forms
    });
    &FORMS
}

/// One to fifteen digits, without a point or with one at any place: as text, and how many stand before and
/// behind it.
fn all_figures() -> Vec<(String, usize, usize)> {
    let mut all = Vec::new();
    for digits in 1..=15 {
        all.push(("9".repeat(digits), digits, 0));
        for whole in 0..=digits {
            let places = digits - whole;
            all.push((format!("{}.{}", "9".repeat(whole), "9".repeat(places)), whole, places));
        }
    }
    all
}

/// The number that a text writes, as `number` gives it.
pub fn number_plain(text: &[u8], least: usize, most: usize) -> Number {
    let masked = |byte: &u8| if b"0123456789".contains(byte) { '9' } else { char::from(*byte) };
    match forms().get(&text.iter().map(masked).collect::<String>()) {
        Some(form) if (least..=most).contains(&(form.whole + form.places)) => written(text, form),
        _ => Number { fit: false, value: 0, places: 0, exponent: 0, written: false },
    }
}

/// The number that a text of this form writes.
fn written(text: &[u8], form: &Form) -> Number {
    let text = std::str::from_utf8(text).expect("a form has no other bytes");
    let (figures, exponent) = text.split_at(text.len() - form.exponent.len());
    let number = |text: &str| text.parse::<i64>().expect("a sign and digits");
    Number {
        fit: true,
        value: number(&figures.replace('.', "")),
        places: form.places,
        exponent: if exponent.is_empty() { 0 } else { number(&exponent.replace('E', "")) },
        written: !exponent.is_empty(),
    }
}

#[cfg(test)]
mod tests {
    use super::*;

    #[test]
    fn the_forms_are_all_and_each_comes_once() {
        // A sign or none, five exponents, and for n digits one form without a point and n + 1 with it.
        let figures: usize = (1..=15).map(|digits| digits + 2).sum();
        assert_eq!(forms().len(), 2 * 5 * figures);
        for (text, form) in forms() {
            let figures = text.split('E').next().unwrap();
            let digits = figures.matches('9').count();
            assert_eq!(digits, form.whole + form.places);
            assert!((1..=15).contains(&digits) && figures.matches('.').count() <= 1);
        }
    }
}
