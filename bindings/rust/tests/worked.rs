//! The worked reports W1 to W12 of document 01, and what the tables hold after each.

use stormhlaw::{
    read, Accepted, Code, How, Level, Reason, Refusal, Segment, SegmentRecord, Separators, LONGEST,
};

const W1: [&str; 7] =
    ["ST*842*0001", "BNR*11*NR7*20240301", "HL*1**RP*1", "HL*2*1*I*0", "NCD*1", "NCA**R1", "SE*7*0001"];

/// Start, length, row and level of W1's segments.
const SEGMENTS: [(u64, u64, u64, u64); 7] = [
    (0, 11, 1, 0),
    (12, 19, 2, 0),
    (32, 10, 18, 1),
    (43, 10, 18, 2),
    (54, 5, 46, 2),
    (60, 7, 64, 2),
    (68, 9, 79, 0),
];

/// Segment, parent, depth and code of W1's levels.
const LEVELS: [(u64, u64, u64, Code); 2] = [(3, 0, 1, Code::Report), (4, 1, 2, Code::Item)];

/// What a record holds that no reading touched.
const OLD_SEGMENT: SegmentRecord = SegmentRecord { start: 91, length: 92, row: 93, level: 98 };
const OLD_LEVEL: Level = Level { segment: 94, parent: 95, depth: 96, code: 97 };

fn joined(segments: &[&str]) -> String {
    segments.iter().map(|segment| format!("{segment}~")).collect()
}

/// W1 with another segment in place of one of its own, counted from 1.
fn with(number: usize, segment: &str) -> String {
    let mut segments = W1;
    segments[number - 1] = segment;
    joined(&segments)
}

/// Reads with so much room and tests that the first segments and levels have W1's records and the others are old.
fn answer(report: &str, rooms: (usize, usize), kept: (usize, usize)) -> Result<Accepted, Refusal> {
    let mut segments = vec![OLD_SEGMENT; rooms.0];
    let mut levels = vec![OLD_LEVEL; rooms.1];
    let answer = read(report.as_bytes(), Separators::STANDARD, How::new(), &mut segments, &mut levels);
    let found: Vec<_> = segments[..kept.0].iter().map(|s| (s.start, s.length, s.row, s.level)).collect();
    assert_eq!(found, SEGMENTS[..kept.0], "{report}");
    let found: Vec<_> =
        levels[..kept.1].iter().map(|l| (l.segment, l.parent, l.depth, l.code().unwrap())).collect();
    assert_eq!(found, LEVELS[..kept.1], "{report}");
    assert!(segments[kept.0..].iter().all(|record| *record == OLD_SEGMENT), "{report}");
    assert!(levels[kept.1..].iter().all(|record| *record == OLD_LEVEL), "{report}");
    answer
}

fn refused(reason: Reason, segment: usize, byte: usize, element: usize) -> Result<Accepted, Refusal> {
    Err(Refusal { reason, segment, byte, element })
}

const ROOM: (usize, usize) = (10, 5);

#[test]
fn w1() {
    let report = "ST*842*0001~BNR*11*NR7*20240301~HL*1**RP*1~HL*2*1*I*0~NCD*1~NCA**R1~SE*7*0001~";
    assert_eq!(joined(&W1), report);
    let accepted = Ok(Accepted { segments: 7, levels: 2, bytes: 78 });
    assert_eq!(answer(report, ROOM, (7, 2)), accepted);
    assert_eq!(answer(report, (7, 2), (7, 2)), accepted);
}

#[test]
fn w2_to_w5() {
    let second = |segment| answer(&with(4, segment), ROOM, (3, 1));
    assert_eq!(second("HL*2*1*F*0"), refused(Reason::LevelNotPermitted, 4, 43, 2));
    assert_eq!(second("HL*2*9*I*0"), refused(Reason::ParentUnknown, 4, 43, 2));
    assert_eq!(second("HL*1*1*I*0"), refused(Reason::LevelUsedBefore, 4, 43, 1));
    assert_eq!(answer(&with(7, "SE*6*0001"), ROOM, (6, 2)), refused(Reason::ClosingWrong, 7, 68, 1));
}

#[test]
fn w6_to_w10() {
    let w6 = joined(&[W1[0], W1[1], W1[2], "SE*4*0001"]);
    assert_eq!(answer(&w6, ROOM, (3, 1)), refused(Reason::MarkUnfit, 4, 43, 0));
    assert_eq!(answer("", ROOM, (0, 0)), refused(Reason::NoTerminator, 1, 0, 0));
    let w8 = joined(&[W1[0], W1[1], W1[2], W1[3], W1[5], W1[6]]);
    assert_eq!(answer(&w8, ROOM, (4, 2)), refused(Reason::NoRowFits, 5, 54, 0));
    assert_eq!(answer(&with(6, "NCA**R1**5"), ROOM, (5, 2)), refused(Reason::NoteBroken, 6, 60, 4));
    assert_eq!(answer(&joined(&W1), (6, 5), (6, 2)), refused(Reason::NoRoom, 7, 68, 0));
}

/// The answer for W1 with a DTM behind its BNR, at byte 32.
fn with_dtm(dtm: &str) -> Result<usize, Refusal> {
    let report = joined(&[W1[0], W1[1], dtm, W1[2], W1[3], W1[4], W1[5], "SE*8*0001"]);
    let (mut segments, mut levels) = ([OLD_SEGMENT; 10], [OLD_LEVEL; 5]);
    read(report.as_bytes(), Separators::STANDARD, How::new(), &mut segments, &mut levels)
        .map(|accepted| accepted.segments)
}

#[test]
fn w11_and_w12() {
    let unfit = |element| Err(Refusal { reason: Reason::ValueUnfit, segment: 3, byte: 32, element });
    assert_eq!(with_dtm("DTM*002*20240229"), Ok(8));
    assert_eq!(with_dtm("DTM*002*20230229"), unfit(2));
    assert_eq!(with_dtm("DTM*002**2359"), Ok(8));
    assert_eq!(with_dtm("DTM*002**23595"), unfit(3));
}

#[test]
fn answers_1_and_2_point_at_no_segment() {
    let twice = Separators { component: b'*', ..Separators::STANDARD };
    let (mut segments, mut levels) = ([OLD_SEGMENT; 10], [OLD_LEVEL; 5]);
    let report = joined(&W1).into_bytes();
    assert_eq!(
        read(&report, twice, How::new(), &mut segments, &mut levels),
        refused(Reason::SeparatorsUnfit, 0, 0, 0)
    );
    let mut long = report.clone();
    long.resize(LONGEST + 1, b'~');
    let answer = read(&long, Separators::STANDARD, How::new(), &mut segments, &mut levels);
    assert_eq!(answer, refused(Reason::InputTooLong, 0, 0, 0));
    assert_eq!((segments, levels), ([OLD_SEGMENT; 10], [OLD_LEVEL; 5]));
    let answer = read(&long[..LONGEST], Separators::STANDARD, How::new(), &mut segments, &mut levels);
    assert_eq!(answer, Ok(Accepted { segments: 7, levels: 2, bytes: 78 }));
}

#[test]
fn a_refusal_reads_as_the_program_prints_it() {
    let answer = answer(&with(4, "HL*2*1*F*0"), ROOM, (3, 1)).unwrap_err();
    assert_eq!(answer.to_string(), "refused 14 segment 4 byte 43 element 2");
    assert!(Reason::ALL.map(Reason::number).into_iter().eq((1..=19).chain([24])));
}

#[test]
fn a_segment_gives_its_bytes() {
    let report = joined(&W1).into_bytes();
    let (mut segments, mut levels) = ([OLD_SEGMENT; 7], [OLD_LEVEL; 2]);
    read(&report, Separators::STANDARD, How::new(), &mut segments, &mut levels).unwrap();
    let found: Vec<_> = segments.iter().map(|record| record.bytes(&report).unwrap()).collect();
    assert_eq!(found, W1.map(str::as_bytes));
    let cut: Vec<_> =
        segments.iter().map(|record| record.segment(&report, Separators::STANDARD).unwrap()).collect();
    assert_eq!(cut, W1.map(|text| Segment::new(text.as_bytes(), Separators::STANDARD)));
    assert_eq!(OLD_SEGMENT.bytes(&report), None);
    assert_eq!(OLD_SEGMENT.segment(&report, Separators::STANDARD), None);
}
