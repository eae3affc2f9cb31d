//! The level that each segment belongs to (document 02, Item 5), and the room that its number takes.

mod both;

use both::{given, Outcome};
use reference::generator::{report, Case};
use reference::vectors::levels::{deep_with, segments, Body, BODIES, DEEP};
use reference::vectors::text::after_bnr;
use reference::{LineEnds, Profile, Separators, LEVEL_NUMBERS, SEGMENT_NUMBERS};
use std::collections::BTreeMap;

/// The level of each accepted segment.
fn levels_of_segments(outcome: &Outcome) -> Vec<u64> {
    outcome.records().iter().map(|record| record[3]).collect()
}

/// Reads a text with the standard separators and so many numbers in the segment table.
fn read_text(text: &str, segment_numbers: usize) -> Outcome {
    let rooms = (segment_numbers, LEVEL_NUMBERS * 20);
    given(text.as_bytes(), Separators::STANDARD, (LineEnds::Skipped, Profile::Report), rooms)
}

/// Room for every text here.
const ROOM: usize = SEGMENT_NUMBERS * 30;

/// The levels of all segments of a report with this body: ST, BNR and SE belong to none.
fn told(body: &Body) -> Vec<u64> {
    let inner = body.iter().map(|(_, level)| *level);
    [0, 0].into_iter().chain(inner).chain([0]).collect()
}

#[test]
fn every_segment_belongs_to_the_level_that_is_told() {
    for body in BODIES {
        let outcome = read_text(&after_bnr(&segments(body)), ROOM);
        assert_eq!(outcome.answer[0], 0, "{body:?}");
        assert_eq!(levels_of_segments(&outcome), told(body), "{body:?}");
    }
}

#[test]
fn by_hand() {
    let levels = |text: &str| levels_of_segments(&read_text(text, ROOM));
    let heading = "ST*842*0001~BNR*1~REF*A~";
    // The heading, and segments before the first HL where nothing follows.
    assert_eq!(levels(heading), [0, 0, 0]);
    // An HL belongs to itself, and what follows it to the HL.
    assert_eq!(levels(&format!("{heading}HL*1**RP~")), [0, 0, 0, 1]);
    assert_eq!(levels(&format!("{heading}HL*1**RP~REF*A~NCD*1~")), [0, 0, 0, 1, 1, 1]);
    // A second HL takes over, and a third under the first as well.
    let three = format!("{heading}HL*1**RP~HL*2*1*I~NCD*1~HL*3*1*I~NCD*1~");
    assert_eq!(levels(&three), [0, 0, 0, 1, 2, 2, 3, 3]);
    // SE belongs to none.
    assert_eq!(levels(&format!("{three}SE*9*0001~")), [0, 0, 0, 1, 2, 2, 3, 3, 0]);
}

#[test]
fn room_is_the_lent_length_divided_by_four() {
    let (text, told) = (after_bnr(&segments(DEEP)), told(DEEP));
    for whole in 0..told.len() {
        for over in 0..4 {
            let outcome = read_text(&text, 4 * whole + over);
            assert_eq!(outcome.answer[..2], [17, whole as u64 + 1]);
            assert_eq!(levels_of_segments(&outcome), told[..whole]);
        }
    }
    assert_eq!(levels_of_segments(&read_text(&text, 4 * told.len())), told);
    // Three numbers for each of the 18 segments are room for thirteen.
    assert_eq!(read_text(&text, 3 * told.len()).records().len(), 13);
}

#[test]
fn a_refusal_leaves_the_levels_of_the_segments_before_it() {
    let told = told(DEEP);
    for number in 1..=told.len() {
        let outcome = read_text(&deep_with(number, "XX*1"), ROOM);
        assert_eq!(outcome.answer[..2], [4, number as u64]);
        assert_eq!(levels_of_segments(&outcome), told[..number - 1]);
    }
}

/// The level of each accepted segment by its bytes: how many segments up to it have the tag HL; 0 for SE.
fn by_the_bytes(case: &Case, outcome: &Outcome) -> Vec<u64> {
    let tag = |record: &[u64; SEGMENT_NUMBERS]| &case.input[record[0] as usize..][..3];
    let [hl, se] = ["HL", "SE"].map(|tag| [tag.as_bytes(), &[case.separators.element]].concat());
    let mut levels = 0;
    let level = |record| {
        levels += u64::from(tag(record) == hl);
        if tag(record) == se {
            0
        } else {
            levels
        }
    };
    outcome.records().iter().map(level).collect()
}

#[test]
fn generated_reports_are_held_to_the_words() {
    let mut came: BTreeMap<&str, usize> = BTreeMap::new();
    for seed in 0..12_000 {
        let case = report(seed);
        let rooms = (case.segment_numbers, case.level_numbers);
        let outcome = given(&case.input, case.separators, (LineEnds::Skipped, case.profile), rooms);
        let levels = levels_of_segments(&outcome);
        assert_eq!(levels, by_the_bytes(&case, &outcome), "seed {seed}");
        // The HL that makes a level belongs to it.
        let last = levels.iter().copied().max().unwrap_or(0);
        for (level, record) in (1..=last).zip(outcome.levels.chunks(LEVEL_NUMBERS)) {
            assert_eq!(levels[record[0] as usize - 1], level, "seed {seed}");
        }
        let number = outcome.answer[0];
        for (kind, here) in [
            ("accepted, more than nine levels", number == 0 && last > 9),
            ("refused behind several levels", number > 2 && last > 1),
            ("refused in the heading", number > 2 && last == 0 && levels.len() > 2),
            ("no room behind a level", number == 17 && last > 0),
        ] {
            *came.entry(kind).or_default() += usize::from(here);
        }
    }
    println!("{came:?}");
    for (kind, count) in came {
        assert!(count > 20, "{kind} came {count} times");
    }
}
