//! Number checks (document 02, Item 6): what a text of type R gives, with every bound on its digits.

use super::case::{Case, Told};

/// Texts that are numbers, and the value, places, exponent and mark that they give, told by hand.
pub const FIT: [(&str, [i64; 4]); 50] = [
    ("-0.50", [-50, 2, 0, 0]),
    ("-0", [0, 0, 0, 0]),
    ("5.E1", [5, 0, 1, 1]),
    (".5E1", [5, 1, 1, 1]),
    ("-.5", [-5, 1, 0, 0]),
    ("5.", [5, 0, 0, 0]),
    ("5E-0", [5, 0, 0, 1]),
    ("5E-07", [5, 0, -7, 1]),
    ("5", [5, 0, 0, 0]),
    ("-5", [-5, 0, 0, 0]),
    (".5", [5, 1, 0, 0]),
    ("-5.", [-5, 0, 0, 0]),
    ("0", [0, 0, 0, 0]),
    ("0.", [0, 0, 0, 0]),
    (".0", [0, 1, 0, 0]),
    ("-.0", [0, 1, 0, 0]),
    ("-0.0E-0", [0, 1, 0, 1]),
    ("0E99", [0, 0, 99, 1]),
    ("00000", [0, 0, 0, 0]),
    ("007.50", [750, 2, 0, 0]),
    ("0.000", [0, 3, 0, 0]),
    ("10", [10, 0, 0, 0]),
    ("1.00000", [100_000, 5, 0, 0]),
    ("90817263.54", [9_081_726_354, 2, 0, 0]),
    ("5E0", [5, 0, 0, 1]),
    ("5E00", [5, 0, 0, 1]),
    ("5E-00", [5, 0, 0, 1]),
    ("5E7", [5, 0, 7, 1]),
    ("5E07", [5, 0, 7, 1]),
    ("5E10", [5, 0, 10, 1]),
    ("5E99", [5, 0, 99, 1]),
    ("5E-1", [5, 0, -1, 1]),
    ("5E-10", [5, 0, -10, 1]),
    ("5E-99", [5, 0, -99, 1]),
    ("-5E99", [-5, 0, 99, 1]),
    ("-.5E-99", [-5, 1, -99, 1]),
    ("-5.E-1", [-5, 0, -1, 1]),
    ("-1.5E-3", [-15, 1, -3, 1]),
    ("0.050E12", [50, 3, 12, 1]),
    ("123456789012345", [123_456_789_012_345, 0, 0, 0]),
    ("999999999999999", [999_999_999_999_999, 0, 0, 0]),
    ("-999999999999999", [-999_999_999_999_999, 0, 0, 0]),
    ("000000000000001", [1, 0, 0, 0]),
    ("000000000000000", [0, 0, 0, 0]),
    (".000000000000001", [1, 15, 0, 0]),
    ("-.999999999999999", [-999_999_999_999_999, 15, 0, 0]),
    ("999999999999999.", [999_999_999_999_999, 0, 0, 0]),
    ("999999999999999E99", [999_999_999_999_999, 0, 99, 1]),
    ("-9999999.99999999E-99", [-999_999_999_999_999, 8, -99, 1]),
    ("12345678901234.5E07", [123_456_789_012_345, 1, 7, 1]),
];

/// Texts that are no numbers, or that have sixteen digits.
pub const UNFIT: [&str; 78] = [
    "E5", "5E", "5E-", "5E+1", "5e1", "5E123", "5E1E1", "5E1.0", "5E1-", "-E1", ".E1", "+1", ".", "-", "--5",
    "", "1234567890123456", "-1234567890123456", "0000000000000000", "0000000000000001", ".1234567890123456",
    "1.234567890123456", "123456789012345.6", "1234567890123456.", "1234567890123456E1",
    "-12345678.90123456E-1", "-.", "-.E1", "-.E", "E", "-E", "E-", "E-5", "EE", "e", "5e", "5e-1", "5E1e1",
    "5EE1", "5E1E", "5E-1E-1", "5E.1", "5E1.", "5E-.", "5E-1.", "5E--1", "5E-1-", "5E1-1", "5E-+1", "5E000",
    "5E-000", "5E-123", "5E 1", "5 E1", "5EA", "5E-A", "5E1A", "5.E", ".5E", "5.E-", "5-", "5-5", "5.-5",
    "-5-", ".-5", "..5", "5..", "1.2.3", "-.5.", "+5E1", "-+5", "+-5", "5+", " 5", "5 ", "5,0", "0X5",
    "FIVE",
];

/// A number check of a text, with any of its bytes.
fn check(text: &[u8], least: usize, most: usize) -> Told {
    Case::Number { text: text.to_vec(), least, most }.into()
}

/// The cases of this group.
pub fn cases() -> Vec<Told> {
    [examples(), bounds(), points(), digits(), other_bytes(), long()].concat()
}

fn examples() -> Vec<Told> {
    let texts = FIT.iter().map(|(text, _)| *text).chain(UNFIT);
    texts.map(|text| check(text.as_bytes(), 1, 15)).collect()
}

/// So many digits, with the point before the one at this place if there is any, and one of several exponents.
fn figures(digits: usize, point: Option<usize>, turn: usize) -> String {
    let mut text: String = "9071254386".chars().cycle().take(digits).collect();
    if let Some(place) = point {
        text.insert(place, '.');
    }
    let sign = ["", "-", ""][turn % 3];
    let exponent = ["", "E3", "E-07", "", "E99"][turn % 5];
    format!("{sign}{text}{exponent}")
}

/// Fewer digits than the least, the least, the most and more; bounds that none or all fit between.
fn bounds() -> Vec<Told> {
    let mut cases = Vec::new();
    for digits in [1, 2, 10, 15, 16] {
        for least in [0, digits - 1, digits, digits + 1] {
            for most in [digits - 1, digits, digits + 1, 15] {
                let turn = cases.len();
                let point = (turn % 2 == 1).then_some(turn % (digits + 1));
                cases.push(check(figures(digits, point, turn).as_bytes(), least, most));
            }
        }
    }
    for (text, least, most) in [
        ("5", 0, 0),
        ("", 0, 0),
        ("", 0, 15),
        ("-.E1", 0, 15),
        ("5E55", 2, 3),
        ("55E5", 2, 2),
        ("5.5E-55", 2, 2),
        ("-5", 2, 2),
        ("5.", 2, 2),
        ("055", 3, 3),
        ("055", 1, 2),
        ("5", 0, 65_535),
        ("5", 65_535, 65_535),
        ("5", 65_535, 0),
        ("123456789012345", 0, 65_535),
        ("1234567890123456", 0, 65_535),
        ("1234567890123456", 16, 16),
        ("12345678901234567", 17, 17),
        ("123456789012345E11", 17, 17),
    ] {
        cases.push(check(text.as_bytes(), least, most));
    }
    cases
}

/// Fifteen digits and sixteen with the point at every place.
fn points() -> Vec<Told> {
    let mut cases = Vec::new();
    for digits in [15, 16] {
        for place in 0..=digits {
            cases.push(check(figures(digits, Some(place), place).as_bytes(), 1, 15));
        }
    }
    cases
}

/// Every digit as the last of the number and as the last of the exponent.
fn digits() -> Vec<Told> {
    (0..10).map(|digit| check(format!("-4.{digit}E-1{digit}").as_bytes(), 1, 15)).collect()
}

/// Bytes next to those of a number, and odd ones, at the start, in the middle and in the exponent.
fn other_bytes() -> Vec<Told> {
    let mut cases = Vec::new();
    for byte in *b"/:,;DFde+_ \0\n\x7F\x80\xB5\xC5\xFF" {
        cases.push(check(&[byte, b'5'], 1, 15));
        cases.push(check(&[b'5', byte, b'5'], 1, 15));
        cases.push(check(&[b'5', b'E', byte], 1, 15));
    }
    cases
}

/// Texts that are much longer than any number.
fn long() -> Vec<Told> {
    let many = |text: &str| text.repeat(300);
    let texts = [
        many("0"),
        many("9"),
        many("-"),
        many("."),
        many("E"),
        many("5E"),
        format!("{}5", many("0")),
        format!("5.{}", many("0")),
        format!("5E{}", many("0")),
        format!("5E-{}", many("9")),
        format!("5{}", many(" ")),
    ];
    texts.iter().map(|text| check(text.as_bytes(), 1, 15)).collect()
}
