//! The number of a quantity: what is one, its value, places and exponent, and how it is displayed.

use stormhlaw::{number, raw, Accepted, How, Reason, Refusal, Segment, Separators, Tables};

/// Value, places, exponent, and whether one is written.
type Four = (i64, u32, i32, bool);

/// Quantities, their numbers, and how they are displayed.
const FIT: [(&str, Four, &str); 19] = [
    ("-0.50", (-50, 2, 0, false), "-0.50"),
    ("-0", (0, 0, 0, false), "0"),
    ("-0.00", (0, 2, 0, false), "0.00"),
    ("25", (25, 0, 0, false), "25"),
    ("025", (25, 0, 0, false), "25"),
    ("5.", (5, 0, 0, false), "5"),
    (".5", (5, 1, 0, false), "0.5"),
    ("-.5", (-5, 1, 0, false), "-0.5"),
    ("1.0", (10, 1, 0, false), "1.0"),
    ("5.E1", (5, 0, 1, true), "50"),
    (".5E1", (5, 1, 1, true), "5"),
    ("5E-0", (5, 0, 0, true), "5"),
    ("5E-07", (5, 0, -7, true), "0.0000005"),
    ("5E-2", (5, 0, -2, true), "0.05"),
    ("-1.25E1", (-125, 2, 1, true), "-12.5"),
    ("0E9", (0, 0, 9, true), "0"),
    ("0E-2", (0, 0, -2, true), "0.00"),
    ("999999999999999", (999_999_999_999_999, 0, 0, false), "999999999999999"),
    ("-.123456789012345", (-123_456_789_012_345, 15, 0, false), "-0.123456789012345"),
];

/// Texts that are no quantities.
const UNFIT: [&str; 28] = [
    "", "-", ".", "-.", "E", "E5", "-E5", ".E5", "5E", "5E-", "5E+1", "5e1", "5E123", "5E-007", "5E1.0",
    "5E1E1", "+1", "--1", "1-", "1.2.3", "1,5", " 5", "5 ", "5A", "5\0", "1000000000000000",
    "0000000000000000", "1.000000000000000",
];

/// The numbers of a text as the crate gives them.
fn four(text: &[u8]) -> Option<Four> {
    number(text).map(|number| (number.value(), number.places(), number.exponent(), number.has_exponent()))
}

fn shown(text: &str) -> String {
    number(text.as_bytes()).unwrap().to_string()
}

fn are_digits(text: &str) -> bool {
    text.bytes().all(|byte| byte.is_ascii_digit())
}

/// The number that an exponent without its E writes.
fn plain_exponent(text: &str) -> Option<i32> {
    let digits = text.strip_prefix('-').unwrap_or(text);
    if are_digits(digits) && (1..=2).contains(&digits.len()) {
        text.parse().ok()
    } else {
        None
    }
}

/// The numbers of a text by cutting it at E, sign and point.
fn plainly(text: &str) -> Option<Four> {
    let (signed, exponent) = match text.split_once('E') {
        Some((signed, exponent)) => (signed, Some(plain_exponent(exponent)?)),
        None => (text, None),
    };
    let unsigned = signed.strip_prefix('-').unwrap_or(signed);
    let (before, behind) = unsigned.split_once('.').unwrap_or((unsigned, ""));
    let digits = [before, behind].concat();
    if !are_digits(&digits) || !(1..=15).contains(&digits.len()) {
        return None;
    }
    let value: i64 = digits.parse().ok()?;
    let value = if signed == unsigned { value } else { -value };
    Some((value, behind.len() as u32, exponent.unwrap_or(0), exponent.is_some()))
}

#[test]
fn quantities_and_their_numbers() {
    for (text, numbers, _) in FIT {
        assert_eq!(four(text.as_bytes()), Some(numbers), "{text}");
        assert_eq!(plainly(text), Some(numbers), "{text}");
    }
}

#[test]
fn other_texts_have_none() {
    for text in UNFIT {
        assert_eq!(number(text.as_bytes()), None, "{text}");
        assert_eq!(raw::number(text.as_bytes()), [0; 5], "{text}");
    }
    assert_eq!(number(&vec![b'1'; 1_000_000]), None);
    for byte in (0..=u8::MAX).filter(|byte| !byte.is_ascii_digit()) {
        assert_eq!(number(&[b'5', byte]).is_some(), byte == b'.', "{byte}");
        assert_eq!(number(&[byte, b'5']).is_some(), byte == b'.' || byte == b'-', "{byte}");
    }
}

#[test]
fn every_short_text_of_these_bytes() {
    let mut texts = vec![String::new()];
    for _ in 0..6 {
        let longer = |text: &String| ["-", ".", "E", "0", "7", "+"].map(|more| format!("{text}{more}"));
        texts = texts.iter().flat_map(longer).collect();
        for text in &texts {
            assert_eq!(four(text.as_bytes()), plainly(text), "{text}");
        }
    }
}

#[test]
fn one_to_fifteen_digits_with_a_point_anywhere() {
    for count in 1..=17 {
        let digits = &"12345678901234567"[..count];
        for point in 0..=count {
            for exponent in ["", "E7", "E-99"] {
                let text = format!("-{}.{}{exponent}", &digits[..point], &digits[point..]);
                assert_eq!(four(text.as_bytes()), plainly(&text), "{text}");
                assert_eq!(number(text.as_bytes()).is_some(), count <= 15, "{text}");
            }
        }
    }
}

#[test]
fn every_exponent() {
    for exponent in -99..=99 {
        let found = four(format!("-12.5E{exponent}").as_bytes());
        assert_eq!(found, Some((-125, 1, exponent, true)));
    }
    assert_eq!(four(b"5E00"), Some((5, 0, 0, true)));
    assert_eq!(four(b"5E-00"), Some((5, 0, 0, true)));
}

#[test]
fn numbers_are_equal_and_not_what_they_are_worth() {
    assert_eq!(number(b"5"), number(b"05."));
    assert_ne!(number(b"1"), number(b"1.0"));
    assert_ne!(number(b"1"), number(b"1E0"));
    assert_ne!(number(b"1"), number(b"-1"));
}

#[test]
fn a_plain_decimal_is_displayed() {
    for (text, _, wanted) in FIT {
        assert_eq!(shown(text), wanted, "{text}");
    }
    for count in 1..=99 {
        assert_eq!(shown(&format!("-7E{count}")), format!("-7{}", "0".repeat(count)));
        assert_eq!(shown(&format!("7E-{count}")), format!("0.{}7", "0".repeat(count - 1)));
    }
    assert_eq!(shown("999999999999999E99"), format!("999999999999999{}", "0".repeat(99)));
    assert_eq!(shown("-.123456789012345E-99"), format!("-0.{}123456789012345", "0".repeat(99)));
}

#[test]
fn the_usual_text_is_displayed_again() {
    for value in (-2_000_i64..=2_000).chain([999_999_999_999_999, -999_999_999_999_999]) {
        assert_eq!(shown(&format!("{value}")), format!("{value}"));
        for part in ["0", "5", "05", "50", "007"] {
            let text = format!("{}.{part}", value % 1_000);
            assert_eq!(shown(&text), text);
        }
    }
}

#[test]
fn it_is_padded_as_whole_numbers_are() {
    let (low, high) = (number(b"-.5").unwrap(), number(b"25").unwrap());
    assert_eq!(format!("{low:8}|{high:8}"), "    -0.5|      25");
    assert_eq!(format!("{low:<8}|{high:*^8}"), "-0.5    |***25***");
    assert_eq!(format!("{low:08}|{high:+08}"), "-00000.5|+0000025");
    assert_eq!(format!("{low:1}|{high:+}"), "-0.5|+25");
}

/// The answer where this is the NCA of W1, and its bytes.
fn read_nca(nca: &str) -> Result<Vec<u8>, (Reason, usize, usize)> {
    let report =
        format!("ST*842*0001~BNR*11*NR7*20240301~HL*1**RP*1~HL*2*1*I*0~NCD*1~{nca}~SE*7*0001~").into_bytes();
    let mut tables = Tables::for_input(&report);
    match tables.read(&report, Separators::STANDARD, How::new()) {
        Ok(Accepted { .. }) => Ok(tables.segments()[5].bytes(&report).unwrap().to_vec()),
        Err(Refusal { reason, segment, element, .. }) => Err((reason, segment, element)),
    }
}

#[test]
fn a_reading_accepts_quantities_and_no_other_texts() {
    for (text, numbers, _) in FIT {
        let bytes = read_nca(&format!("NCA**R1**{text}*EA:{text}")).unwrap();
        let nca = Segment::new(&bytes, Separators::STANDARD);
        assert_eq!(four(nca.element(4)), Some(numbers), "{text}");
        assert_eq!(four(nca.component(5, 2)), Some(numbers), "{text}");
    }
    for text in UNFIT.iter().filter(|text| !text.is_empty() && !text.contains('\0')) {
        let refused = |element| Err((Reason::ValueUnfit, 6, element));
        assert_eq!(read_nca(&format!("NCA**R1**{text}*EA")), refused(4), "{text}");
        assert_eq!(read_nca(&format!("NCA**R1**5*EA:{text}")), refused(5), "{text}");
    }
}

#[test]
fn every_third_component_has_at_most_ten_digits() {
    for (fits, longer) in [("1234567890", "12345678901"), ("-1.234567890E-99", "-1.2345678900E-99")] {
        assert!(read_nca(&format!("NCA**R1**5*EA:1:{fits}")).is_ok(), "{fits}");
        assert_eq!(read_nca(&format!("NCA**R1**5*EA:1:{longer}")), Err((Reason::ValueUnfit, 6, 5)));
        assert!(number(longer.as_bytes()).is_some(), "{longer}");
    }
}
