//! Type R (document 01, "Element rules"; document 02, Item 6): whether a text is a number, and which.

/// What a check of type R hands back; all zeros for a text that is unfit.
#[derive(Clone, Copy, Debug, PartialEq, Eq)]
pub struct Number {
    /// The text is a number of type R, and has as many digits as it may have.
    pub fit: bool,
    /// The signed digits as one whole number, the point left out.
    pub value: i64,
    /// How many digits stand behind the point.
    pub places: usize,
    /// The exponent; 0 where none is written.
    pub exponent: i64,
    /// An exponent is written.
    pub written: bool,
}

impl Number {
    /// What an unfit text gives.
    pub const UNFIT: Number = Number { fit: false, value: 0, places: 0, exponent: 0, written: false };

    /// The five numbers in the order in which they are handed back.
    pub fn numbers(self) -> [i64; 5] {
        [i64::from(self.fit), self.value, self.places as i64, self.exponent, i64::from(self.written)]
    }
}

/// No number has more digits than this, whatever its element allows.
pub const MOST_DIGITS: usize = 15;

/// The number that a text writes, if it is one with at least and at most so many digits. The exponent's
/// digits do not count.
pub fn number(text: &[u8], least: usize, most: usize) -> Number {
    match Parts::cut(text) {
        Some(parts) if within(parts.digits(), least, most) => parts.number(),
        _ => Number::UNFIT,
    }
}

/// Whether a text is a number with at least and at most so many digits. Most numbers are digits alone, and
/// these need only be counted.
#[inline]
pub(crate) fn fits(text: &[u8], least: usize, most: usize) -> bool {
    let digits = leading_digits(text);
    if digits == text.len() {
        return within(digits, least, most);
    }
    Parts::cut(text).is_some_and(|parts| within(parts.digits(), least, most))
}

/// Whether so many digits are neither too few nor too many: at least one, at most fifteen, and within the
/// bounds.
#[inline]
fn within(digits: usize, least: usize, most: usize) -> bool {
    least.max(1) <= digits && digits <= most.min(MOST_DIGITS)
}

/// How many digits a text begins with.
#[inline]
fn leading_digits(text: &[u8]) -> usize {
    text.iter().position(|byte| !byte.is_ascii_digit()).unwrap_or(text.len())
}

/// A text that has the form of a number, cut into its parts. It may still have no digit, or too many.
struct Parts<'a> {
    negative: bool,
    whole: &'a [u8],
    fraction: &'a [u8],
    exponent: Option<i64>,
}

impl Parts<'_> {
    /// Cuts a text from left to right; none if a byte is out of place.
    fn cut(text: &[u8]) -> Option<Parts<'_>> {
        let (negative, unsigned) = sign(text);
        let (whole, behind) = unsigned.split_at(leading_digits(unsigned));
        let (fraction, behind) = match behind {
            [b'.', behind @ ..] => behind.split_at(leading_digits(behind)),
            _ => (&[][..], behind),
        };
        let exponent = match behind {
            [] => None,
            [b'E', power @ ..] => Some(signed_power(power)?),
            _ => return None,
        };
        Some(Parts { negative, whole, fraction, exponent })
    }

    /// How many digits count for length.
    fn digits(&self) -> usize {
        self.whole.len() + self.fraction.len()
    }

    /// The number. There are few enough digits for it to be held.
    fn number(&self) -> Number {
        let digits = self.whole.iter().chain(self.fraction);
        let size = digits.fold(0, |size, digit| size * 10 + figure(*digit));
        Number {
            fit: true,
            value: if self.negative { -size } else { size },
            places: self.fraction.len(),
            exponent: self.exponent.unwrap_or(0),
            written: self.exponent.is_some(),
        }
    }
}

/// Whether a text begins with `-`, and what follows that.
fn sign(text: &[u8]) -> (bool, &[u8]) {
    match text {
        [b'-', unsigned @ ..] => (true, unsigned),
        _ => (false, text),
    }
}

/// What stands behind `E`: an optional `-` and one or two digits.
fn signed_power(text: &[u8]) -> Option<i64> {
    let (negative, unsigned) = sign(text);
    let size = match unsigned {
        [ones] if ones.is_ascii_digit() => figure(*ones),
        [tens, ones] if tens.is_ascii_digit() && ones.is_ascii_digit() => figure(*tens) * 10 + figure(*ones),
        _ => return None,
    };
    Some(if negative { -size } else { size })
}

/// What a digit stands for.
fn figure(digit: u8) -> i64 {
    i64::from(digit - b'0')
}
