//! Whole replies by both profiles: with line ends, cut at every byte, with every room, in other separators.

use super::{barred, small_with, taken, whole_segments, SMALL, STARTS};
use crate::vectors::case::{Case, How, Told};
use crate::vectors::text::{accepted, closed, joined, reading, refused, written_with};
use crate::{Separators, LEVEL_NUMBERS, SEGMENT_NUMBERS};

/// Room for all of the small reply, and a number over in each table.
const ROOMS: (usize, usize) = (SEGMENT_NUMBERS * 8 + 1, LEVEL_NUMBERS * 3 + 1);

pub fn cases() -> Vec<Told> {
    [
        outside(),
        small(),
        closing(),
        in_lines(),
        cut_everywhere(),
        segment_rooms(),
        level_rooms(),
        sets(),
        long(),
    ]
    .concat()
}

/// The whole reply; by the first profile, which does not know RB, and with an I in its place; with the LM and
/// LQ that source document 002 has behind the last N1.
fn outside() -> Vec<Told> {
    let text = joined(&whole_segments());
    let mut cases: Vec<Told> = taken(&text, 30, 3).into();
    cases.push(refused(&text, 14, 26, 3));
    let known = text.replace("**RB", "**I");
    cases.extend(taken(&known, 30, 3));
    cases.push(accepted(&known, 30, 3));
    let mut longer = whole_segments();
    longer.splice(25..25, ["LM*DF", "LQ*0*A"]);
    cases.push(barred(joined(&longer), 24, 26, 0));
    cases.push(refused(joined(&longer), 14, 28, 3));
    cases
}

/// The small reply; by the first profile; replies that both profiles take, and a report that is none.
fn small() -> Vec<Told> {
    let text = joined(&SMALL);
    let mut cases: Vec<Told> = taken(&text, 8, 3).into();
    cases.push(refused(&text, 14, 7, 3));
    cases.push(refused(&text, 14, 7, 3).by(How::STRICT));
    let known = small_with(7, "HL*3**I");
    cases.extend(taken(&known, 8, 3));
    cases.push(accepted(&known, 8, 3));
    let shortest = closed(&["ST*842*0001", "BNR*1", "HL*1**I"]);
    cases.extend(taken(&shortest, 4, 1));
    cases.push(accepted(&shortest, 4, 1));
    let report = "ST*842*0001~BNR*11*NR7*20240301~HL*1**RP*1~HL*2*1*I*0~NCD*1~NCA**R1~SE*7*0001~";
    cases.push(accepted(report, 7, 2));
    cases.push(barred(report, 9, 3, 4));
    // What stands behind SE is not looked at.
    let behind = Some([0, 8, 3, 83]);
    cases.push(Told { case: reading((text.clone() + "REF*A~\0").as_bytes()), answer: behind }.by(How::REPLY));
    cases
}

/// SE and what stands before everything: the same in both profiles.
fn closing() -> Vec<Told> {
    vec![
        barred(small_with(8, "SE*7*0001"), 16, 8, 1),
        barred(small_with(8, "SE*8*0002"), 16, 8, 2),
        barred(small_with(8, "SE*7*0002"), 16, 8, 1),
        barred(small_with(8, "SE*8*0001*X"), 9, 8, 3),
        barred(small_with(1, "ST*843*0001"), 10, 1, 1),
        barred(small_with(2, "XX*1"), 4, 2, 0),
        barred(small_with(5, "NCD"), 6, 5, 0),
        barred(small_with(5, "NCD**5\x02"), 5, 5, 2),
        barred(small_with(6, "NCA**UC**5"), 11, 6, 4),
        barred(small_with(6, "NCA**UC**5*EA:::::::::::::::9"), 9, 6, 5),
        barred("", 3, 1, 0),
        barred("ST*842*0001~BNR*1~SE*3*0001~", 7, 3, 0),
    ]
}

/// Line ends behind each segment, by both choices.
fn in_lines() -> Vec<Told> {
    let mut cases = Vec::new();
    for (end, skipped) in [("\r\n", 2), ("\n", 1), ("\r", 1)] {
        let case = reading(joined(&SMALL).replace('~', &format!("~{end}")).as_bytes());
        let skipping = Told { case: case.clone(), answer: Some([0, 8, 3, 83 + 7 * skipped]) };
        cases.push(skipping.by(How::REPLY));
        cases.push(Told { case, answer: Some([5, 2, 12, 0]) }.by(How::STRICT_REPLY));
    }
    let case = reading("ST*842*0001~\r\nBNR*1~\r\nREF*A~".as_bytes());
    cases.push(Told { case, answer: Some([24, 3, 22, 0]) }.by(How::REPLY));
    cases
}

/// The small reply cut at every byte.
fn cut_everywhere() -> Vec<Told> {
    let whole = joined(&SMALL).into_bytes();
    let cut = |length: usize| {
        let before = STARTS.iter().filter(|start| **start <= length as u64).count();
        let case = Case::read(whole[..length].to_vec(), Separators::STANDARD, ROOMS);
        Told { case, answer: Some([3, before as u64, STARTS[before - 1], 0]) }.by(How::REPLY)
    };
    (0..whole.len()).map(cut).collect()
}

/// The small reply with so many numbers in the tables.
fn with_rooms(rooms: (usize, usize)) -> Told {
    let by_levels = [2, 3, 6].get(rooms.1 / LEVEL_NUMBERS).copied().unwrap_or(8);
    let whole = (rooms.0 / SEGMENT_NUMBERS).min(by_levels);
    let answer = if whole >= 8 { [0, 8, 3, 83] } else { [17, whole as u64 + 1, STARTS[whole], 0] };
    let case = Case::read(joined(&SMALL).into_bytes(), Separators::STANDARD, rooms);
    Told { case, answer: Some(answer) }.by(How::REPLY)
}

/// Every room for segments.
fn segment_rooms() -> Vec<Told> {
    (0..=SEGMENT_NUMBERS * 8 + 3).map(|segments| with_rooms((segments, ROOMS.1))).collect()
}

/// Every room for levels; and none in either table.
fn level_rooms() -> Vec<Told> {
    let mut cases: Vec<Told> =
        (0..=LEVEL_NUMBERS * 3 + 3).map(|levels| with_rooms((ROOMS.0, levels))).collect();
    cases.push(with_rooms((0, 0)));
    cases.push(with_rooms((SEGMENT_NUMBERS * 3, LEVEL_NUMBERS)));
    cases
}

/// Other separators, and sets that are unfit.
fn sets() -> Vec<Told> {
    let mut cases = Vec::new();
    for set in [[b'|', b'^', b'\''], [1, 2, 3], [b'*', b':', b'\n'], [b'\r', b'\n', b'~']] {
        let separators = Separators::new(set[0], set[1], set[2]);
        let case = Case::read(written_with(&joined(&SMALL), separators), separators, ROOMS);
        cases.push(Told { case, answer: Some([0, 8, 3, 83]) }.by(How::REPLY));
    }
    for set in [[b'*', b'*', b'~'], [0, b':', b'~'], [b'*', b'A', b'~']] {
        let separators = Separators::new(set[0], set[1], set[2]);
        let case = Case::read(joined(&SMALL).into_bytes(), separators, ROOMS);
        cases.push(Told { case, answer: Some([1, 0, 0, 0]) }.by(How::REPLY));
    }
    cases
}

/// Inputs of the greatest length and one byte more.
fn long() -> Vec<Told> {
    let filled = |text: &str, length: usize, answer: [u64; 4]| {
        let case = Case::long(text.as_bytes().to_vec(), Separators::STANDARD, ROOMS, length);
        Told { case, answer: Some(answer) }.by(How::REPLY)
    };
    let text = joined(&SMALL);
    vec![
        filled(&text, 1_048_576, [0, 8, 3, 83]),
        filled(&text, 1_048_577, [2, 0, 0, 0]),
        filled("ST*842*0001~BNR*1~PID*A~", 1_048_576, [24, 3, 18, 0]),
    ]
}
