//! The fast reader's row list and next-row table against the paper's text.

use reference::plain::{candidates, first_ways, parse, Part, Ways, PAPER};
use reference::rows::{Entry, Row, LIST, MOST, NEXT, TAGS};
use std::collections::BTreeSet;
use std::rc::Rc;

/// A row of the constant list as the plain reader has it.
fn part(row: &Row, opens: bool) -> Part {
    let most = if row.most == 0 { None } else { Some(usize::from(row.most)) };
    Part::Row {
        number: usize::from(row.number),
        tag: TAGS[row.tag as usize].1,
        least: usize::from(row.mandatory || opens),
        most: if opens { Some(1) } else { most },
    }
}

fn parts(list: &[Entry], within: bool) -> Vec<Part> {
    list.iter()
        .enumerate()
        .map(|(at, entry)| match entry {
            Entry::Row(row) => part(row, within && at == 0),
            Entry::Loop(inner) => {
                let Entry::Row(first) = &inner[0] else { panic!("a loop opens with a row") };
                Part::Loop { least: usize::from(first.mandatory), pass: Rc::new(parts(inner, true)) }
            }
        })
        .collect()
}

#[test]
fn the_constant_list_is_the_papers() {
    assert_eq!(parts(LIST, false), parse(PAPER));
}

/// Goes through every place that a report can reach, each being the last row with all ways in which
/// the list may go on, and hands it over with the number of segments that stand in that row.
fn every_place(mut visit: impl FnMut(usize, usize, &Ways)) {
    let mut seen: Vec<(usize, usize, Ways)> = vec![(0, 1, first_ways())];
    let mut at = 0;
    while at < seen.len() {
        let (row, repeated, ways) = seen[at].clone();
        visit(row, repeated, &ways);
        for (_, tag) in TAGS {
            let found = candidates(&ways, tag);
            let Some((next, _)) = found.first().cloned() else { continue };
            let again = if next == row { (repeated + 1).min(3) } else { 1 };
            let place = (next, again, found.into_iter().map(|(_, way)| way).collect());
            if !seen.contains(&place) {
                seen.push(place);
            }
        }
        at += 1;
    }
}

#[test]
fn the_next_row_table_agrees_with_the_list_at_every_place() {
    let mut compared = BTreeSet::new();
    every_place(|row, repeated, ways| {
        for (tag, text) in TAGS {
            let found: Vec<usize> = candidates(ways, text).iter().map(|(row, _)| *row).collect();
            assert!(found.len() <= 1, "two candidates after row {row} with {text}: {found:?}");
            let mut listed = usize::from(NEXT[row][tag as usize]);
            if listed == row && MOST[row] == 2 && repeated >= 2 {
                listed = 0;
            }
            assert_eq!(found.first().copied().unwrap_or(0), listed, "after row {row} with {text}");
            compared.insert((row, tag as usize));
        }
    });
    // Row 0 is the place before ST; nothing but the 79 rows and that place is reached.
    assert_eq!(compared.len(), 80 * 34);
    assert_eq!(79 * 34, 2686);
}

#[test]
fn only_se_ends_a_report() {
    every_place(|row, _, ways| {
        let ended = ways.iter().any(|way| {
            way.iter().all(|part| match part {
                Part::Row { least, .. } | Part::Loop { least, .. } => *least == 0,
            })
        });
        assert_eq!(ended, row == 79);
    });
}
