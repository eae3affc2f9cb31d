//! The number of a quantity.

#![forbid(unsafe_code)]

use crate::raw;
use std::fmt;

/// The number of a quantity, as [`number`] gives it. It is worth `value` times ten to the power of `exponent - places`.
///
/// Two are equal where all their numbers are: `1.0` and `1` are worth the same and are not equal.
///
/// It is displayed as a plain decimal with every digit: an exponent moves the point. Width, fill and sign are those of
/// whole numbers.
///
/// ```
/// use stormhlaw::number;
///
/// let shown = |text: &[u8]| number(text).map(|number| number.to_string());
/// assert_eq!(shown(b"-.50").as_deref(), Some("-0.50"));
/// assert_eq!(shown(b"5.E1").as_deref(), Some("50"));
/// assert_eq!(shown(b"5E-2").as_deref(), Some("0.05"));
/// assert_eq!(shown(b"-0").as_deref(), Some("0"));
/// ```
#[derive(Clone, Copy, Debug, PartialEq, Eq, Hash)]
pub struct Number {
    value: i64,
    places: u32,
    exponent: i32,
    has_exponent: bool,
}

/// The number of a quantity, or None where the text is no quantity.
///
/// A quantity is an optional `-`; then digits, 1 to 15 with leading zeros counted, and at most one `.` before, among or
/// behind them; then optionally an exponent, which is `E`, an optional `-` and one or two digits. NCA04 is one, and so
/// are components 2, 3, 5, 6, 8, 9, 11, 12, 14 and 15 of NCA05: in an accepted report each of them that is not empty.
///
/// ```
/// use stormhlaw::{number, Segment, Separators};
///
/// let nca = Segment::new(b"NCA**R1**-0.50*EA", Separators::STANDARD);
/// let found = number(nca.element(4)).unwrap();
/// assert_eq!((found.value(), found.places()), (-50, 2));
/// assert_eq!((found.exponent(), found.has_exponent()), (0, false));
///
/// let found = number(b"5.E1").unwrap();
/// assert_eq!((found.value(), found.places()), (5, 0));
/// assert_eq!((found.exponent(), found.has_exponent()), (1, true));
///
/// assert_eq!(number(b"E5"), None);
/// assert_eq!(number(b"1234567890123456"), None);
/// ```
pub fn number(text: &[u8]) -> Option<Number> {
    let [fit, value, places, exponent, written] = raw::number(text);
    // The library gives 0 to 15 places and an exponent of -99 to 99.
    let (places, exponent, has_exponent) = (places as u32, exponent as i32, written != 0);
    (fit != 0).then_some(Number { value, places, exponent, has_exponent })
}

impl Number {
    /// The digits before the exponent as one whole number, without the point and with the sign.
    pub const fn value(self) -> i64 {
        self.value
    }

    /// How many of these digits stand behind the point, 0 to 15.
    pub const fn places(self) -> u32 {
        self.places
    }

    /// The exponent, -99 to 99; 0 where none is written.
    pub const fn exponent(self) -> i32 {
        self.exponent
    }

    /// Whether an exponent is written, be it 0.
    pub const fn has_exponent(self) -> bool {
        self.has_exponent
    }

    /// The quantity without its sign, as a plain decimal.
    fn unsigned(self) -> String {
        let (digits, power) = (self.value.unsigned_abs(), self.exponent - self.places as i32);
        let behind = power.min(0).unsigned_abs() as usize;
        if behind == 0 {
            let zeros = if digits == 0 { 0 } else { power as usize };
            return format!("{digits}{:0<zeros$}", "");
        }
        // One digit at least stands before the point.
        let all = format!("{digits:0>width$}", width = behind + 1);
        let (before, behind) = all.split_at(all.len() - behind);
        format!("{before}.{behind}")
    }
}

impl fmt::Display for Number {
    fn fmt(&self, out: &mut fmt::Formatter<'_>) -> fmt::Result {
        out.pad_integral(self.value >= 0, "", &self.unsigned())
    }
}
