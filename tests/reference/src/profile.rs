//! The two profiles (document 02, Item 9): which rows a transaction may have, and which codes its levels.

use crate::rows::ROW_COUNT;

/// The profile that a transaction is read by.
#[derive(Clone, Copy, Debug, Default, PartialEq, Eq)]
pub enum Profile {
    /// A nonconformance report: every row, and levels that stand under others.
    #[default]
    Report,
    /// A storage-quality reply: some of the rows, and levels that name no parent and have no mark.
    Reply,
}

/// The rows of a reply, by stretches: the first and the last of each.
const REPLY: [(usize, usize); 11] = [
    (1, 2),
    (12, 12),
    (17, 19),
    (23, 26),
    (30, 31),
    (46, 49),
    (51, 51),
    (56, 56),
    (64, 64),
    (71, 71),
    (79, 79),
];

/// Whether a profile has each of the rows; there is no row 0.
pub(crate) type Rows = [bool; ROW_COUNT + 1];

static REPORT_ROWS: Rows = within(&[(1, ROW_COUNT)]);
static REPLY_ROWS: Rows = within(&REPLY);

/// The rows within these stretches.
const fn within(stretches: &[(usize, usize)]) -> Rows {
    let mut rows = [false; ROW_COUNT + 1];
    let mut at = 0;
    while at < stretches.len() {
        let (mut row, last) = stretches[at];
        while row <= last {
            rows[row] = true;
            row += 1;
        }
        at += 1;
    }
    rows
}

impl Profile {
    /// Both, the default first.
    pub const BOTH: [Profile; 2] = [Profile::Report, Profile::Reply];

    /// The one that this is not.
    pub const fn other(self) -> Profile {
        match self {
            Profile::Report => Profile::Reply,
            Profile::Reply => Profile::Report,
        }
    }

    /// Which rows it has.
    #[inline]
    pub(crate) fn rows(self) -> &'static Rows {
        match self {
            Profile::Report => &REPORT_ROWS,
            Profile::Reply => &REPLY_ROWS,
        }
    }

    /// Whether it has this row.
    pub fn has(self, row: usize) -> bool {
        self.rows().get(row).is_some_and(|has| *has)
    }

    /// The codes that its levels may have.
    pub const fn codes(self) -> &'static [&'static str] {
        match self {
            Profile::Report => &["RP", "I", "F", "PC", "SN"],
            Profile::Reply => &["I", "RB", "RP"],
        }
    }
}

#[cfg(test)]
mod tests {
    use super::*;

    #[test]
    fn the_first_profile_has_every_row_and_the_second_twenty_one() {
        let rows = |profile: Profile| (0..=100).filter(|row| profile.has(*row)).collect::<Vec<usize>>();
        assert_eq!(rows(Profile::Report), (1..=79).collect::<Vec<usize>>());
        let reply = [1, 2, 12, 17, 18, 19, 23, 24, 25, 26, 30, 31, 46, 47, 48, 49, 51, 56, 64, 71, 79];
        assert_eq!(rows(Profile::Reply), reply);
    }

    #[test]
    fn each_is_the_others_other() {
        assert_eq!(Profile::BOTH.map(Profile::other), [Profile::Reply, Profile::Report]);
        assert_eq!(Profile::default(), Profile::Report);
    }
}
