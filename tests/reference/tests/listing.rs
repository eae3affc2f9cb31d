//! The listing has the paper's form, and the reports for the program are what they say they are.

use reference::listing::{listing, PROGRAM_BYTES, PROGRAM_LEVELS, PROGRAM_SEGMENTS};
use reference::reports::{reports, Report};
use reference::vectors::text::{joined, w1_with, W1};
use reference::{read, LineEnds, Profile, Separators, CODES, LEVEL_NUMBERS, SEGMENT_NUMBERS};
use std::collections::BTreeSet;

/// The listing of W1 as document 01 prints it, with the level behind each segment (document 02, Item 5).
const W1_LISTING: &str = "\
842 segments 7 levels 2 bytes 78
1 0 11 1 0
2 12 19 2 0
3 32 10 18 1
4 43 10 18 2
5 54 5 46 2
6 60 7 64 2
7 68 9 79 0
level 1 3 0 1 RP
level 2 4 1 2 I
";

/// The same with CR LF behind each segment: every start comes behind the line ends before it.
const W1_LISTING_IN_LINES: &str = "\
842 segments 7 levels 2 bytes 90
1 0 11 1 0
2 14 19 2 0
3 36 10 18 1
4 49 10 18 2
5 62 5 46 2
6 70 7 64 2
7 80 9 79 0
level 1 3 0 1 RP
level 2 4 1 2 I
";

#[test]
fn listings_of_the_paper() {
    assert_eq!(listing(joined(&W1).as_bytes()), W1_LISTING);
    let in_lines = joined(&W1).replace('~', "~\r\n");
    assert_eq!(listing(in_lines.as_bytes()), W1_LISTING_IN_LINES);
    let w2 = w1_with(4, "HL*2*1*F*0");
    assert_eq!(listing(w2.as_bytes()), "refused 14 segment 4 byte 43 element 2\n");
}

/// The first line for an answer.
fn first_line(answer: [u64; 4]) -> String {
    match answer {
        [0, segments, levels, bytes] => format!("842 segments {segments} levels {levels} bytes {bytes}"),
        [number, segment, byte, element] => {
            format!("refused {number} segment {segment} byte {byte} element {element}")
        }
    }
}

#[test]
fn told_answers_are_listed() {
    for Report { name, input, answer } in reports() {
        let Some(answer) = answer else { continue };
        let listed = listing(&input);
        let records = if answer[0] == 0 { answer[1] + answer[2] } else { 0 };
        assert_eq!(listed.lines().next(), Some(first_line(answer).as_str()), "{name}");
        assert_eq!(listed.lines().count() as u64, 1 + records, "{name}");
    }
}

/// The reader that is made for speed gives the same.
#[test]
fn both_readers_list_the_same() {
    for Report { name, input, .. } in reports() {
        if input.len() > PROGRAM_BYTES {
            continue;
        }
        let (mut segments, mut levels) =
            (vec![0; SEGMENT_NUMBERS * PROGRAM_SEGMENTS], vec![0; LEVEL_NUMBERS * PROGRAM_LEVELS]);
        let (set, line_ends) = (Separators::STANDARD, LineEnds::Skipped);
        let answer = read(&input, set, line_ends, Profile::Report, &mut segments, &mut levels).numbers();
        let mut lines = vec![first_line(answer)];
        if answer[0] == 0 {
            let records = segments.chunks(SEGMENT_NUMBERS).take(answer[1] as usize);
            lines.extend(
                (1..).zip(records).map(|(at, r)| format!("{at} {} {} {} {}", r[0], r[1], r[2], r[3])),
            );
            let records = levels.chunks(LEVEL_NUMBERS).take(answer[2] as usize);
            lines.extend((1..).zip(records).map(|(at, r)| {
                format!("level {at} {} {} {} {}", r[0], r[1], r[2], CODES[r[3] as usize - 1])
            }));
        }
        assert_eq!(listing(&input).lines().collect::<Vec<&str>>(), lines, "{name}");
    }
}

#[test]
fn names_are_files_and_differ() {
    let names: BTreeSet<String> = reports().into_iter().map(|report| report.name).collect();
    assert_eq!(names.len(), reports().len());
    let letter = |byte: u8| byte.is_ascii_lowercase() || byte.is_ascii_digit() || byte == b'-';
    assert!(names.iter().all(|name| name.bytes().all(letter)));
}

/// Whether a line with these words is a segment's: five numbers.
fn is_segment_line(words: &Vec<&str>) -> bool {
    words.len() == 1 + SEGMENT_NUMBERS && words.iter().all(|word| word.parse::<u64>().is_ok())
}

/// Answers 0 and 2 to 17, each with each of its elements; every code, depth and row.
#[test]
fn every_kind_of_answer_is_there() {
    let came: BTreeSet<(u64, u64)> = reports()
        .iter()
        .filter_map(|report| report.answer)
        .map(|answer| (answer[0], if answer[0] == 0 { 0 } else { answer[3] }))
        .collect();
    let mut wanted = vec![(0, 0), (2, 0), (3, 0), (4, 0), (5, 0), (6, 0), (7, 0), (12, 1), (13, 2)];
    wanted.extend([(14, 2), (14, 3), (15, 0), (15, 2), (15, 4), (16, 1), (16, 2), (17, 0)]);
    wanted.extend([1, 2, 3, 5, 60_000].map(|element| (5, element)));
    wanted.extend([1, 2, 3, 5, 60_000].map(|element| (6, element)));
    wanted.extend([1, 2, 3, 5].map(|element| (8, element)));
    wanted.extend([3, 5, 6, 7, 32].map(|element| (9, element)));
    wanted.extend((1..=31).map(|element| (10, element)));
    wanted.extend([2, 3, 4, 5].into_iter().chain((6..=30).step_by(2)).map(|element| (11, element)));
    for kind in wanted {
        assert!(came.contains(&kind), "no report with answer {kind:?}");
    }
    let listed: String = reports().iter().map(|report| listing(&report.input)).collect();
    for code in Profile::Report.codes() {
        assert!(listed.lines().any(|line| line.starts_with("level ") && line.ends_with(&format!(" {code}"))));
    }
    let segment_lines = || listed.lines().map(|line| line.split(' ').collect()).filter(is_segment_line);
    let rows: BTreeSet<&str> = segment_lines().map(|words| words[3]).collect();
    assert_eq!(rows.len(), 79);
    // Segments of the heading and of each of 200 levels.
    let levels: BTreeSet<&str> = segment_lines().map(|words| words[4]).collect();
    assert_eq!(levels.len(), 1 + PROGRAM_LEVELS);
}
