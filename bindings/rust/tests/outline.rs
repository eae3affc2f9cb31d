//! Levels listed under their parents: the walk of a level table, and the outline of a report.

use stormhlaw::{
    outline, raw, read, walk, Code, How, Level, Outline, SegmentRecord, Separators, Tables, WalkReason,
    WalkRefusal,
};

const STANDARD: Separators = Separators::STANDARD;

/// What each number of the output holds before.
const HELD: u64 = 77;

/// Levels behind other branches, none of them named by its number: 1 has 2, 3 and 8; 2 has 4 and 7; 4 has 6; 5 has none.
const SCATTERED: &str = "ST*842*0001~BNR*11*NR7*20240301~REF*A~HL*9**RP*1~HL*8*9*I*1~NCD*1~HL*7*9*I~\
    HL*6 A*8*F~NCD*1~NCA**R1~HL*5**RP~REF*B~HL*4*6 A*PC~HL*SN*8*SN~NCD*1~HL*1*9*I~SE*17*0001~";

/// What the walk of its levels gives.
const SCATTERED_ORDER: [u64; 8] = [1, 2, 4, 6, 7, 3, 8, 5];

/// A level as it is told: number, depth, code, HL01, segment and byte of its HL, and the segment behind those that belong
/// to it.
type Told = (usize, usize, Code, &'static str, usize, usize, usize);

/// Its levels in that order.
const SCATTERED_OUTLINE: [Told; 8] = [
    (1, 1, Code::Report, "9", 4, 38, 5),
    (2, 2, Code::Item, "8", 5, 49, 7),
    (4, 3, Code::Component, "6 A", 8, 75, 11),
    (6, 4, Code::ProductCharacteristic, "4", 13, 115, 14),
    (7, 3, Code::SerialNumber, "SN", 14, 127, 16),
    (3, 2, Code::Item, "7", 7, 66, 8),
    (8, 2, Code::Item, "1", 16, 144, 17),
    (5, 1, Code::Report, "5", 11, 100, 13),
];

/// Levels with these parents and depths. Segment and code are not judged.
fn levels(told: &[(u64, u64)]) -> Vec<Level> {
    told.iter()
        .map(|(parent, depth)| Level { segment: u64::MAX, parent: *parent, depth: *depth, code: 0 })
        .collect()
}

/// The numbers of such levels.
fn numbers(told: &[(u64, u64)]) -> Vec<u64> {
    told.iter().flat_map(|(parent, depth)| vec![u64::MAX, *parent, *depth, 0]).collect()
}

/// The walk of these levels.
fn listed(told: &[(u64, u64)]) -> Result<Vec<u64>, WalkRefusal> {
    let mut output = vec![HELD; told.len()];
    let answer = walk(&levels(told), &mut output).map(<[u64]>::to_vec);
    assert!(answer.is_ok() || output.iter().all(|number| *number == HELD));
    answer
}

/// The level that is unfit first.
fn unfit(told: &[(u64, u64)]) -> usize {
    let refusal = listed(told).unwrap_err();
    assert_eq!(refusal.reason, WalkReason::LevelsUnfit);
    refusal.level
}

/// A walk over plain numbers: the answer, and an output of so many numbers after it.
fn walked(levels: &[u64], count: u64, length: usize) -> ([u64; 2], Vec<u64>) {
    let mut output = vec![HELD; length];
    (raw::walk(levels, count, &mut output), output)
}

/// The tables after a reading of that report.
fn tables(report: &[u8], how: How) -> Tables {
    let mut tables = Tables::for_input(report);
    tables.read(report, STANDARD, how).unwrap();
    tables
}

/// An outline as it is told.
fn told(outline: Outline, report: &'static str) -> Vec<Told> {
    outline
        .map(|level| {
            let name = std::str::from_utf8(level.name(report.as_bytes(), STANDARD).unwrap()).unwrap();
            let (range, code) = (level.range(), level.code().unwrap());
            assert_eq!((range.start, range.len()), (level.segment(), level.segments.len()));
            (level.number, level.depth(), code, name, range.start, level.byte().unwrap(), range.end)
        })
        .collect()
}

#[test]
fn levels_that_stand_under_their_parents_already() {
    assert_eq!(listed(&[]).unwrap(), []);
    assert_eq!(listed(&[(0, 1)]).unwrap(), [1]);
    assert_eq!(listed(&[(0, 1), (1, 2), (2, 3), (3, 4), (1, 2), (0, 1)]).unwrap(), [1, 2, 3, 4, 5, 6]);
    assert_eq!(listed(&[(0, 1), (0, 1), (0, 1)]).unwrap(), [1, 2, 3]);
}

#[test]
fn children_behind_other_branches() {
    assert_eq!(listed(&[(0, 1), (0, 1), (1, 2)]).unwrap(), [1, 3, 2]);
    assert_eq!(listed(&[(0, 1), (0, 1), (2, 2), (1, 2)]).unwrap(), [1, 4, 2, 3]);
    let crossed = [(0, 1), (0, 1), (2, 2), (1, 2), (4, 3), (3, 3), (6, 4), (5, 4)];
    assert_eq!(listed(&crossed).unwrap(), [1, 4, 5, 8, 2, 3, 6, 7]);
}

#[test]
fn unfit_levels() {
    // A parent that is no earlier level.
    assert_eq!(unfit(&[(1, 2)]), 1);
    assert_eq!(unfit(&[(0, 1), (2, 2)]), 2);
    assert_eq!(unfit(&[(0, 1), (3, 2), (0, 1)]), 2);
    assert_eq!(unfit(&[(0, 1), (0, 1), (u64::MAX, 2)]), 3);
    // A depth that is not the parent's and one, or not 1 without a parent.
    for depth in [0, 1, 3, 5, u64::MAX] {
        assert_eq!(unfit(&[(0, 1), (1, depth)]), 2);
    }
    for depth in [0, 2, 5, u64::MAX] {
        assert_eq!(unfit(&[(0, 1), (0, depth), (0, 9)]), 2);
    }
    // A depth of 5.
    assert_eq!(unfit(&[(0, 1), (1, 2), (2, 3), (3, 4), (4, 5)]), 5);
}

#[test]
fn output_that_is_short_or_long() {
    let levels = levels(&[(0, 1), (0, 1), (1, 2)]);
    for length in 0..3 {
        let mut output = vec![HELD; length];
        let refusal = walk(&levels, &mut output).unwrap_err();
        assert_eq!(refusal, WalkRefusal { reason: WalkReason::OutputTooShort, level: 0 });
        assert_eq!(output, vec![HELD; length]);
    }
    let mut output = [HELD; 5];
    assert_eq!(walk(&levels, &mut output).unwrap(), [1, 3, 2]);
    assert_eq!(output, [1, 3, 2, HELD, HELD]);
}

#[test]
fn counts_and_room() {
    let numbers = numbers(&[(0, 1), (0, 1), (1, 2), (9, 9)]);
    assert_eq!(walked(&numbers, 0, 3), ([0, 0], vec![HELD; 3]));
    assert_eq!(walked(&numbers, 2, 3), ([0, 2], vec![1, 2, HELD]));
    assert_eq!(walked(&numbers, 3, 3), ([0, 3], vec![1, 3, 2]));
    // The fourth is unfit, and is so before the output is too short.
    assert_eq!(walked(&numbers, 4, 3), ([20, 4], vec![HELD; 3]));
    assert_eq!(walked(&numbers, 3, 2), ([21, 0], vec![HELD; 2]));
    // Room is the length divided by four; four times a great count may be small in 64 bits.
    assert_eq!(walked(&numbers[..15], 3, 3), ([0, 3], vec![1, 3, 2]));
    assert_eq!(walked(&numbers[..11], 3, 3), ([20, 0], vec![HELD; 3]));
    for count in [5, 16, 1 << 62, (1 << 62) + 3, u64::MAX] {
        assert_eq!(walked(&numbers, count, 3), ([20, 0], vec![HELD; 3]));
    }
    assert_eq!(walked(&[], 0, 0), ([0, 0], vec![]));
    assert_eq!(walked(&[], 1, 0), ([20, 0], vec![]));
}

#[test]
fn a_refusal_says_what_it_is() {
    let refusal = listed(&[(0, 1), (1, 3)]).unwrap_err();
    assert_eq!(refusal.to_string(), "refused 20 level 2");
    assert_eq!(WalkReason::ALL.map(WalkReason::number), [20, 21]);
}

#[test]
fn the_outline_of_a_report() {
    let report = SCATTERED.as_bytes();
    let tables = tables(report, How::new());
    let mut output = [HELD; 10];
    assert_eq!(walk(tables.levels(), &mut output).unwrap(), SCATTERED_ORDER);
    assert_eq!(output[8..], [HELD; 2]);
    assert_eq!(told(tables.outline(), SCATTERED), SCATTERED_OUTLINE);
    // The same in what is lent.
    let (mut segments, mut levels) = ([SegmentRecord::default(); 17], [Level::default(); 8]);
    read(report, STANDARD, How::new(), &mut segments, &mut levels).unwrap();
    assert_eq!(told(outline(&segments, &levels, &mut [HELD; 8]).unwrap(), SCATTERED), SCATTERED_OUTLINE);
    let refusal = outline(&segments, &levels, &mut [HELD; 7]).unwrap_err();
    assert_eq!(refusal, WalkRefusal { reason: WalkReason::OutputTooShort, level: 0 });
}

#[test]
fn an_outline_knows_its_length() {
    let tables = tables(SCATTERED.as_bytes(), How::new());
    let mut outline = tables.outline();
    for left in (0..8).rev() {
        outline.next().unwrap();
        assert_eq!((outline.len(), outline.clone().count()), (left, left));
    }
    assert!(outline.next().is_none() && outline.next().is_none());
}

/// Every segment but those of the heading and the SE belongs to one level, and stands with it.
#[test]
fn every_segment_is_of_one_level() {
    let tables = tables(SCATTERED.as_bytes(), How::new());
    let mut all: Vec<usize> = tables.outline().flat_map(|level| level.range()).collect();
    all.sort_unstable();
    assert_eq!(all, (4..17).collect::<Vec<usize>>());
    for level in tables.outline() {
        assert_eq!(level.segments, &tables.segments()[level.range().start - 1..level.range().end - 1]);
        assert!(level.segments.iter().all(|segment| segment.level == level.number as u64));
        assert_eq!(Some(&level.segments[0]), level.record.hl(tables.segments()));
    }
}

#[test]
fn line_ends_belong_to_no_level() {
    let w1 = "ST*842*0001~BNR*11*NR7*20240301~HL*1**RP*1~HL*2*1*I*0~NCD*1~NCA**R1~SE*7*0001~";
    let report = w1.replace('~', "~\r\n").into_bytes();
    let tables = tables(&report, How::new());
    let found: Vec<_> = tables.outline().map(|level| (level.byte(), level.range())).collect();
    assert_eq!(found, [(Some(36), 3..4), (Some(49), 4..7)]);
}

#[test]
fn a_reply_has_no_level_under_another() {
    const REPLY: &str = "ST*842*0001~BNR*11*NR7*20240301~HL*C**RP~HL*B**RB~HL*A**I~NCD*1~NCA**R1~SE*8*0001~";
    let tables = tables(REPLY.as_bytes(), How::reply());
    let wanted = [
        (1, 1, Code::Report, "C", 3, 32, 4),
        (2, 1, Code::Response, "B", 4, 41, 5),
        (3, 1, Code::Item, "A", 5, 50, 8),
    ];
    assert_eq!(told(tables.outline(), REPLY), wanted);
}

#[test]
fn what_a_refused_reading_leaves_has_an_outline() {
    let report = SCATTERED.as_bytes();
    let mut tables = Tables::for_input(report);
    assert_eq!(tables.outline().len(), 0);
    for length in 0..report.len() {
        let refusal = tables.read(&report[..length], STANDARD, How::new()).unwrap_err();
        let last = refusal.segment - 1;
        let wanted: Vec<Told> = SCATTERED_OUTLINE
            .into_iter()
            .filter(|level| level.4 <= last)
            .map(|level| (level.0, level.1, level.2, level.3, level.4, level.5, level.6.min(last + 1)))
            .collect();
        assert_eq!(told(tables.outline(), SCATTERED), wanted, "{refusal}");
    }
}

/// Records that are not of one reading lead to no panic, and to nothing that is not there.
#[test]
fn records_that_do_not_belong_together() {
    let tables = tables(SCATTERED.as_bytes(), How::new());
    for segment in [0, 1, 5, 17, 18, u64::MAX] {
        let levels = [Level { segment, parent: 0, depth: 1, code: 9 }];
        let mut output = [HELD];
        let level = outline(tables.segments(), &levels, &mut output).unwrap().next().unwrap();
        assert_eq!((level.segments.len(), level.byte(), level.code()), (0, None, None));
        assert_eq!(level.name(SCATTERED.as_bytes(), STANDARD), None);
        assert_eq!(level.range().len(), 0);
    }
    // Another input than was read.
    let last = tables.outline().nth(6).unwrap();
    assert_eq!(last.name(b"ST*842*0001~", STANDARD), None);
}
