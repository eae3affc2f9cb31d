//! The types DT and TM, which the kinds of bytes alone do not settle
//! (document 01, "Element rules").

/// DT: eight digits CCYYMMDD that are a real Gregorian date.
pub fn date(text: &[u8]) -> bool {
    let Ok(text) = <&[u8; 8]>::try_from(text) else {
        return false;
    };
    if !text.iter().all(u8::is_ascii_digit) {
        return false;
    }
    let year = two(text[0], text[1]) * 100 + two(text[2], text[3]);
    let month = two(text[4], text[5]);
    let day = two(text[6], text[7]);
    day >= 1 && day <= days(year, month)
}

/// The days of a month; 0 for a month that is none.
fn days(year: u32, month: u32) -> u32 {
    match month {
        1 | 3 | 5 | 7 | 8 | 10 | 12 => 31,
        4 | 6 | 9 | 11 => 30,
        2 if leap(year) => 29,
        2 => 28,
        _ => 0,
    }
}

/// Leap years are divisible by 4 and not by 100 unless by 400.
fn leap(year: u32) -> bool {
    year.is_multiple_of(4) && (!year.is_multiple_of(100) || year.is_multiple_of(400))
}

/// TM: 4, 6, 7 or 8 digits, hours 00-23, minutes and seconds 00-59.
pub fn time(text: &[u8]) -> bool {
    if !matches!(text.len(), 4 | 6 | 7 | 8) || !text.iter().all(u8::is_ascii_digit) {
        return false;
    }
    two(text[0], text[1]) <= 23
        && two(text[2], text[3]) <= 59
        && (text.len() == 4 || two(text[4], text[5]) <= 59)
}

/// The number that two digits write.
fn two(tens: u8, ones: u8) -> u32 {
    u32::from(tens - b'0') * 10 + u32::from(ones - b'0')
}

#[cfg(test)]
mod tests {
    use super::*;

    #[test]
    fn dates_agree_with_a_calendar_walked_day_by_day() {
        let mut real = Vec::new();
        let (mut year, mut month, mut day) = (0u32, 1u32, 1u32);
        while year <= 9999 {
            real.push(year * 10000 + month * 100 + day);
            let february = if year % 400 == 0 || (year % 100 != 0 && year % 4 == 0) { 29 } else { 28 };
            let lengths = [31, february, 31, 30, 31, 30, 31, 31, 30, 31, 30, 31];
            day += 1;
            if day > lengths[month as usize - 1] {
                (day, month) = (1, month + 1);
            }
            if month > 12 {
                (month, year) = (1, year + 1);
            }
        }
        assert_eq!(real.len(), 25 * 146_097);
        let mut tried = Vec::new();
        for year in 0..=9999 {
            for month in 0..=13 {
                for day in 0..=32 {
                    let number = year * 10000 + month * 100 + day;
                    let mut text = [b'0'; 8];
                    let mut left = number;
                    for byte in text.iter_mut().rev() {
                        *byte = b'0' + (left % 10) as u8;
                        left /= 10;
                    }
                    if date(&text) {
                        tried.push(number);
                    }
                }
            }
        }
        assert_eq!(tried, real);
    }

    #[test]
    fn dates_of_the_paper_and_texts_that_are_none() {
        assert!(date(b"20240229"));
        assert!(!date(b"20230229"));
        assert!(date(b"00000229"));
        assert!(date(b"20000229"));
        assert!(!date(b"19000229"));
        assert!(date(b"99991231"));
        for text in ["", "2024022", "202402290", "2024022A", "2024-2-2", "20249901", "20240199"] {
            assert!(!date(text.as_bytes()), "{text}");
        }
    }

    #[test]
    fn times() {
        for text in ["0000", "2359", "235959", "0000000", "2359599", "23595999", "00000000"] {
            assert!(time(text.as_bytes()), "{text}");
        }
        for text in [
            "", "235", "23595", "2400", "2360", "235960", "2359609", "240000", "235959999", "23:5", "235A",
            "-123", "2359599A",
        ] {
            assert!(!time(text.as_bytes()), "{text}");
        }
    }
}
