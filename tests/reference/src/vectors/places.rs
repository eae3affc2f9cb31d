//! Every tag after every row: the shortest way to the row, then a segment with the tag. Where a row
//! takes it, its record shows which, and the reading then finds no further terminator, or was
//! accepted at SE. The same by the profile of replies, after each of its rows.

use super::case::{Case, How, Told};
use super::text::joined;
use crate::rows::{Tag, NEXT, ROW_COUNT, TAGS};
use crate::{Profile, Separators, LEVEL_NUMBERS, SEGMENT_NUMBERS};

/// How many files the cases are spread over, so that each stays short.
const FILES: usize = 4;

/// The cases in files: `rowsa`, `rowsb`, ..
pub fn files() -> Vec<(String, Vec<Told>)> {
    // After SE, row 79, nothing is looked at.
    let rows: Vec<usize> = (0..ROW_COUNT).collect();
    rows.chunks(ROW_COUNT.div_ceil(FILES))
        .zip('a'..)
        .map(|(rows, letter)| (format!("rows{letter}"), rows.iter().flat_map(|row| after(*row)).collect()))
        .collect()
}

/// Every tag before ST and after every row of a reply, read as one.
pub fn replies() -> Vec<Told> {
    let rows = (0..ROW_COUNT).filter(|row| *row == 0 || Profile::Reply.has(*row));
    rows.flat_map(after).map(|told| told.by(How::REPLY)).collect()
}

/// Every tag after this row.
fn after(row: usize) -> Vec<Told> {
    let way = shortest(row);
    TAGS.iter().map(|(tag, _)| place(&way, *tag)).collect()
}

fn place(way: &[Tag], tag: Tag) -> Told {
    let tags: Vec<Tag> = way.iter().copied().chain([tag]).collect();
    let segments: Vec<String> = tags.iter().enumerate().map(|(at, tag)| segment(*tag, at + 1)).collect();
    let levels = tags.iter().filter(|tag| **tag == Tag::HL).count();
    let rooms = (SEGMENT_NUMBERS * segments.len() + 1, LEVEL_NUMBERS * levels);
    Case::read(joined(&segments).into_bytes(), Separators::STANDARD, rooms).into()
}

/// The shortest way to a row, found by going one row further at a time.
fn shortest(row: usize) -> Vec<Tag> {
    let mut ways: Vec<(usize, Vec<Tag>)> = vec![(0, Vec::new())];
    let mut at = 0;
    loop {
        let (reached, way) = ways[at].clone();
        if reached == row {
            return way;
        }
        for (tag, _) in TAGS {
            let next = usize::from(NEXT[reached][tag as usize]);
            if next != 0 && ways.iter().all(|(known, _)| *known != next) {
                ways.push((next, [&way[..], &[tag]].concat()));
            }
        }
        at += 1;
    }
}

/// A short valid segment; the number serves as HL01 and as SE01.
fn segment(tag: Tag, number: usize) -> String {
    match tag {
        Tag::ST => "ST*842*0001".to_string(),
        Tag::SE => format!("SE*{number}*0001"),
        Tag::HL => format!("HL*{number}**I"),
        Tag::N1 => "N1*SU*A".to_string(),
        Tag::DTM => "DTM*002**0000".to_string(),
        Tag::LIN => "LIN**BP*A".to_string(),
        Tag::NTE => "NTE**A".to_string(),
        Tag::NCA => "NCA***A".to_string(),
        Tag::BIN => "BIN*1*A".to_string(),
        _ => format!("{tag:?}*A"),
    }
}
