//! The 79 rows of document 01 as a nested constant, and the next-row table worked out from it.

/// The 34 tags, in the order in which the row list first names them.
#[derive(Clone, Copy, Debug, PartialEq, Eq, Hash)]
#[repr(u8)]
#[allow(missing_docs, clippy::upper_case_acronyms)]
#[rustfmt::skip]
pub enum Tag {
    ST, BNR, REF, DTM, PID, MEA, PWK, N1, N2, N3, N4, PER, HL, LIN, PRS, CID, CS, QTY, TMD, PSD,
    LM, LQ, FA1, FA2, SPS, STA, NCD, NTE, AMT, RC, EFI, BIN, NCA, SE,
}

use Tag::*;

/// How many tags there are.
pub const TAG_COUNT: usize = 34;

/// How many rows there are.
pub const ROW_COUNT: usize = 79;

/// The tags with their text, each at the place of its own number.
#[rustfmt::skip]
pub const TAGS: [(Tag, &str); TAG_COUNT] = [
    (ST, "ST"), (BNR, "BNR"), (REF, "REF"), (DTM, "DTM"), (PID, "PID"), (MEA, "MEA"), (PWK, "PWK"),
    (N1, "N1"), (N2, "N2"), (N3, "N3"), (N4, "N4"), (PER, "PER"), (HL, "HL"), (LIN, "LIN"),
    (PRS, "PRS"), (CID, "CID"), (CS, "CS"), (QTY, "QTY"), (TMD, "TMD"), (PSD, "PSD"), (LM, "LM"),
    (LQ, "LQ"), (FA1, "FA1"), (FA2, "FA2"), (SPS, "SPS"), (STA, "STA"), (NCD, "NCD"), (NTE, "NTE"),
    (AMT, "AMT"), (RC, "RC"), (EFI, "EFI"), (BIN, "BIN"), (NCA, "NCA"), (SE, "SE"),
];

/// One row of the list.
#[derive(Clone, Copy, Debug, PartialEq, Eq)]
pub struct Row {
    /// The row's number, 1 to 79.
    pub number: u8,
    /// The tag of its segments.
    pub tag: Tag,
    /// Marked `!`.
    pub mandatory: bool,
    /// The maximum, or 0 where it repeats freely.
    pub most: u8,
}

/// One entry of the list: a row, or a loop with entries of its own.
#[derive(Clone, Copy, Debug, PartialEq, Eq)]
pub enum Entry {
    /// A row.
    Row(Row),
    /// A loop in brackets. Its first entry is the row that opens it.
    Loop(&'static [Entry]),
}

/// Takes the list in the paper's own writing.
macro_rules! rows {
    (@ [$($done:expr,)*]) => {
        &[$($done),*]
    };
    (@ [$($done:expr,)*] [$($inner:tt)*] $(, $($rest:tt)*)?) => {
        rows!(@ [$($done,)* Entry::Loop(rows!($($inner)*)),] $($($rest)*)?)
    };
    (@ [$($done:expr,)*] $number:literal $tag:ident ! / $most:literal $(, $($rest:tt)*)?) => {
        rows!(@ [$($done,)* rows!(# $number $tag true $most),] $($($rest)*)?)
    };
    (@ [$($done:expr,)*] $number:literal $tag:ident ! $(, $($rest:tt)*)?) => {
        rows!(@ [$($done,)* rows!(# $number $tag true 0),] $($($rest)*)?)
    };
    (@ [$($done:expr,)*] $number:literal $tag:ident / $most:literal $(, $($rest:tt)*)?) => {
        rows!(@ [$($done,)* rows!(# $number $tag false $most),] $($($rest)*)?)
    };
    (@ [$($done:expr,)*] $number:literal $tag:ident $(, $($rest:tt)*)?) => {
        rows!(@ [$($done,)* rows!(# $number $tag false 0),] $($($rest)*)?)
    };
    (# $number:literal $tag:ident $mandatory:literal $most:literal) => {
        Entry::Row(Row { number: $number, tag: Tag::$tag, mandatory: $mandatory, most: $most })
    };
    ($($all:tt)*) => {
        rows!(@ [] $($all)*)
    };
}

/// The row list. Unmarked rows are optional and repeat freely; `/1`, `/2` give a maximum, `!` marks
/// a mandatory row. Brackets are loops, each repeating freely; the first row opens the loop and
/// occurs once in each pass.
#[rustfmt::skip]
pub const LIST: &[Entry] = rows![
    1 ST!/1, 2 BNR!/1, 3 REF, 4 DTM, 5 PID,
    [6 MEA, 7 DTM, 8 REF],
    [9 PWK, 10 REF, 11 DTM],
    [12 N1, 13 N2/2, 14 N3/2, 15 N4/1, 16 REF, 17 PER],
    [18 HL!, 19 LIN/1, 20 PID, 21 PRS, 22 CID, 23 DTM, 24 REF, 25 CS/1, 26 QTY, 27 TMD/1, 28 PSD/1, 29 PWK,
        [30 LM, 31 LQ!],
        [32 MEA, 33 DTM, 34 REF],
        [35 FA1, 36 FA2!],
        [37 SPS, 38 REF, 39 PSD/1,
            [40 MEA, 41 DTM, 42 REF],
            [43 STA, 44 DTM, 45 REF]],
        [46 NCD, 47 NTE, 48 DTM, 49 REF, 50 QTY, 51 AMT, 52 MEA, 53 RC,
            [54 EFI, 55 BIN!/1],
            [56 N1, 57 N2/2, 58 N3/2, 59 N4/1, 60 REF, 61 PER],
            [62 LM, 63 LQ!],
            [64 NCA, 65 NTE, 66 DTM, 67 REF,
                [68 PWK, 69 REF, 70 DTM],
                [71 N1, 72 N2/2, 73 N3/2, 74 N4/1, 75 REF, 76 PER],
                [77 LM, 78 LQ!]]]],
    79 SE!/1
];

/// Where a search through the list has led.
#[derive(Clone, Copy)]
enum Found {
    /// This row may follow.
    Row(u8),
    /// Nothing here takes the tag, and a mandatory row stands in the way of looking further.
    Barred,
    /// Nothing here takes the tag, and all that is left here may be left out.
    Past,
    /// The row asked about does not stand here.
    Elsewhere,
}

/// The row by which an entry begins: itself, or the row that opens the loop.
const fn opening(entry: &Entry) -> Row {
    match entry {
        Entry::Row(row) => *row,
        Entry::Loop(inner) => opening(&inner[0]),
    }
}

/// Looks for the tag among the entries from `from` on, each of which would begin anew.
const fn onward(list: &[Entry], from: usize, tag: u8) -> Found {
    let mut at = from;
    while at < list.len() {
        let first = opening(&list[at]);
        if first.tag as u8 == tag {
            return Found::Row(first.number);
        }
        if first.mandatory {
            return Found::Barred;
        }
        at += 1;
    }
    Found::Past
}

/// What may follow `row` with `tag`, looked for in one list and the loops within it. `within` says
/// that the list is a loop's, so that its first row occurs once in each pass.
const fn following(list: &[Entry], within: bool, row: u8, tag: u8) -> Found {
    let mut at = 0;
    while at < list.len() {
        match &list[at] {
            Entry::Row(this) => {
                if this.number == row {
                    let opener = within && at == 0;
                    if this.tag as u8 == tag && this.most != 1 && !opener {
                        return Found::Row(row);
                    }
                    return onward(list, at + 1, tag);
                }
            }
            Entry::Loop(inner) => match following(inner, true, row, tag) {
                Found::Elsewhere => {}
                // The pass is complete: the loop may begin anew, or be left.
                Found::Past => {
                    let first = opening(&inner[0]);
                    if first.tag as u8 == tag {
                        return Found::Row(first.number);
                    }
                    return onward(list, at + 1, tag);
                }
                found => return found,
            },
        }
        at += 1;
    }
    Found::Elsewhere
}

/// The row that may follow, or 0 for none. Row 0 stands for the place before the first segment.
const fn next_row(row: u8, tag: u8) -> u8 {
    let found = if row == 0 { onward(LIST, 0, tag) } else { following(LIST, false, row, tag) };
    match found {
        Found::Row(next) => next,
        _ => 0,
    }
}

/// Works out the whole next-row table.
const fn next_rows() -> [[u8; TAG_COUNT]; ROW_COUNT + 1] {
    let mut table = [[0; TAG_COUNT]; ROW_COUNT + 1];
    let mut row = 0;
    while row <= ROW_COUNT {
        let mut tag = 0;
        while tag < TAG_COUNT {
            table[row][tag] = next_row(row as u8, tag as u8);
            tag += 1;
        }
        row += 1;
    }
    table
}

/// Notes down the maximum of every row of a list.
const fn note_most(list: &[Entry], mut table: [u8; ROW_COUNT + 1]) -> [u8; ROW_COUNT + 1] {
    let mut at = 0;
    while at < list.len() {
        match &list[at] {
            Entry::Row(row) => table[row.number as usize] = row.most,
            Entry::Loop(inner) => table = note_most(inner, table),
        }
        at += 1;
    }
    table
}

/// The next-row table: for each row (0 being the place before the first segment) and each tag the
/// one row that may follow, or 0. A maximum of 2 is counted apart.
#[allow(long_running_const_eval)]
pub static NEXT: [[u8; TAG_COUNT]; ROW_COUNT + 1] = next_rows();

/// The maximum of each row, or 0 where it repeats freely.
pub static MOST: [u8; ROW_COUNT + 1] = note_most(LIST, [0; ROW_COUNT + 1]);

/// Two or three letters of a tag as one number.
const fn packed(text: &[u8]) -> u32 {
    match text {
        [a, b] => *a as u32 | (*b as u32) << 8,
        [a, b, c] => *a as u32 | (*b as u32) << 8 | (*c as u32) << 16,
        _ => 0,
    }
}

/// How many places the tags are spread over.
const PLACES: usize = 128;

/// The place of a packed tag.
const fn place(packed: u32, spread: u32) -> usize {
    (packed.wrapping_mul(spread) >> 25) as usize
}

/// Puts every tag in its place, its number above the packed letters; none if two meet.
const fn spread_out(spread: u32) -> Option<[u32; PLACES]> {
    let mut places = [0; PLACES];
    let mut tag = 0;
    while tag < TAG_COUNT {
        let letters = packed(TAGS[tag].1.as_bytes());
        let place = place(letters, spread);
        if places[place] != 0 {
            return None;
        }
        places[place] = letters | (tag as u32) << 24;
        tag += 1;
    }
    Some(places)
}

/// Looks for a factor that keeps the tags apart.
const fn found_spread() -> u32 {
    let mut spread = 0x9E37_79B1;
    while spread_out(spread).is_none() {
        spread = spread.wrapping_mul(0x01000193).wrapping_add(2);
    }
    spread
}

#[allow(long_running_const_eval)]
const SPREAD: u32 = found_spread();

static PLACED: [u32; PLACES] = match spread_out(SPREAD) {
    Some(places) => places,
    None => panic!("the tags meet"),
};

/// The number of a tag, if the text is one of the 34.
#[inline]
pub fn tag_number(text: &[u8]) -> Option<usize> {
    let letters = packed(text);
    let found = PLACED[place(letters, SPREAD) & (PLACES - 1)];
    if found & 0x00FF_FFFF == letters && letters != 0 {
        Some((found >> 24) as usize)
    } else {
        None
    }
}

#[cfg(test)]
mod tests {
    use super::*;

    fn numbers(list: &[Entry], all: &mut Vec<u8>) {
        for entry in list {
            match entry {
                Entry::Row(row) => all.push(row.number),
                Entry::Loop(inner) => numbers(inner, all),
            }
        }
    }

    #[test]
    fn the_rows_are_numbered_1_to_79_in_order() {
        let mut all = Vec::new();
        numbers(LIST, &mut all);
        assert_eq!(all, (1..=79).collect::<Vec<u8>>());
    }

    #[test]
    fn tags_stand_at_their_own_number_and_are_found_by_their_text() {
        for (at, (tag, text)) in TAGS.iter().enumerate() {
            assert_eq!(*tag as usize, at);
            assert_eq!(format!("{tag:?}"), *text);
            assert_eq!(tag_number(text.as_bytes()), Some(at));
        }
    }

    #[test]
    fn no_other_text_of_up_to_three_printable_bytes_is_a_tag() {
        let mut found = 0;
        for a in 32..127u8 {
            found += usize::from(tag_number(&[a]).is_some());
            for b in 32..127u8 {
                found += usize::from(tag_number(&[a, b]).is_some());
                for c in 32..127u8 {
                    found += usize::from(tag_number(&[a, b, c]).is_some());
                }
            }
        }
        assert_eq!(found, TAG_COUNT);
        assert_eq!(tag_number(b""), None);
        assert_eq!(tag_number(b"STAX"), None);
    }

    #[test]
    fn maxima() {
        let twos: Vec<usize> = (1..=79).filter(|row| MOST[*row] == 2).collect();
        assert_eq!(twos, [13, 14, 57, 58, 72, 73]);
        let ones: Vec<usize> = (1..=79).filter(|row| MOST[*row] == 1).collect();
        assert_eq!(ones, [1, 2, 15, 19, 25, 27, 28, 39, 55, 59, 74, 79]);
    }
}
