//! What the second profile asks for, in the words of document 02, Item 9.

use crate::Profile;

/// The rows of a reply.
const REPLY_ROWS: &str = "1, 2, 12, 17 to 19, 23 to 26, 30, 31, 46 to 49, 51, 56, 64, 71 and 79";
/// The elements of HL that are absent in a reply.
const REPLY_ABSENT: &str = "HL02 and HL04 absent";
/// The codes of a reply.
const REPLY_CODES: &str = "I, RB, RP";
/// The codes of a report, as document 01 tells of them.
const REPORT_CODES: &str = "RP, I, F, PC, SN";

/// Whether a row is in the profile.
pub fn has_row(profile: Profile, row: usize) -> bool {
    let number = |text: &str| -> usize { text.parse().expect("a row number") };
    let within = |stretch: &str| match stretch.split_once(" to ") {
        Some((first, last)) => (number(first)..=number(last)).contains(&row),
        None => number(stretch) == row,
    };
    profile == Profile::Report || REPLY_ROWS.replace(" and ", ", ").split(", ").any(within)
}

/// The elements of HL that may not be there.
pub fn absent_in_hl(profile: Profile) -> Vec<usize> {
    match profile {
        Profile::Report => Vec::new(),
        Profile::Reply => {
            let named = |word: &str| word.strip_prefix("HL")?.parse().ok();
            REPLY_ABSENT.split(' ').filter_map(named).collect()
        }
    }
}

/// The known code with this text.
pub fn code(profile: Profile, text: &[u8]) -> Option<&'static str> {
    let codes = match profile {
        Profile::Report => REPORT_CODES,
        Profile::Reply => REPLY_CODES,
    };
    codes.split(", ").find(|known| known.as_bytes() == text)
}

#[cfg(test)]
mod tests {
    use super::*;

    #[test]
    fn the_words_are_read_as_they_stand() {
        let rows = |profile| (1..=79).filter(|row| has_row(profile, *row)).collect::<Vec<usize>>();
        assert_eq!(rows(Profile::Report), (1..=79).collect::<Vec<usize>>());
        assert_eq!(
            rows(Profile::Reply),
            (1..=79).filter(|row| Profile::Reply.has(*row)).collect::<Vec<usize>>()
        );
        assert_eq!(rows(Profile::Reply).len(), 21);
        assert_eq!(absent_in_hl(Profile::Report), []);
        assert_eq!(absent_in_hl(Profile::Reply), [2, 4]);
        assert_eq!(code(Profile::Report, b"RB"), None);
        assert_eq!(code(Profile::Reply, b"RB"), Some("RB"));
        assert_eq!(code(Profile::Reply, b"F"), None);
        assert_eq!(code(Profile::Reply, b""), None);
    }
}
