//! The worked reports of document 01 with their tables, and the points where readers went astray.

use reference::vectors::text::{after_bnr, in_fault, in_heading, joined, w1_with, EVERY_ROW, W1};
use reference::{read, Answer, LineEnds, Profile, Separators, LEVEL_NUMBERS, SEGMENT_NUMBERS};

/// The record of a segment: start, length, row, level.
type Segment = [u64; SEGMENT_NUMBERS];
/// The record of a level: segment, parent, depth, code.
type Level = [u64; LEVEL_NUMBERS];

/// Room for a few segments more than W1 has, and for all 79 rows.
const ROOM: (usize, usize) = (SEGMENT_NUMBERS * 10, 20);
const ROOM_FOR_EVERY_ROW: (usize, usize) = (SEGMENT_NUMBERS * 80, 40);

/// The tables before a reading.
fn lent((segments, levels): (usize, usize)) -> (Vec<u64>, Vec<u64>) {
    (
        (0..segments as u64).map(|at| 700_000 + at).collect(),
        (0..levels as u64).map(|at| 800_000 + at).collect(),
    )
}

/// Reads with so much room and checks that everything but the records keeps what it held. No report here
/// has line ends: a strict reading gives the same.
fn given(text: &str, rooms: (usize, usize)) -> (Answer, Vec<Segment>, Vec<Level>) {
    let (mut segments, mut levels) = lent(rooms);
    let read = |line_ends, segments: &mut [u64], levels: &mut [u64]| {
        read(text.as_bytes(), Separators::STANDARD, line_ends, Profile::Report, segments, levels)
    };
    let answer = read(LineEnds::Skipped, &mut segments, &mut levels);
    let mut strict = lent(rooms);
    let strictly = read(LineEnds::Strict, &mut strict.0, &mut strict.1);
    assert_eq!((answer, &segments, &levels), (strictly, &strict.0, &strict.1));
    let (untouched, untouched_levels) = lent(rooms);
    let count = match answer {
        Answer::Accepted { segments, .. } => segments,
        Answer::Refused { segment, .. } => segment.saturating_sub(1),
    };
    let records: Vec<Segment> = segments.as_chunks().0[..count].to_vec();
    let level_count = records.iter().filter(|record| record[2] == 18).count();
    assert_eq!(segments[SEGMENT_NUMBERS * count..], untouched[SEGMENT_NUMBERS * count..]);
    assert_eq!(levels[LEVEL_NUMBERS * level_count..], untouched_levels[LEVEL_NUMBERS * level_count..]);
    (answer, records, levels.as_chunks().0[..level_count].to_vec())
}

fn refused(number: usize, segment: usize, byte: usize, element: usize) -> Answer {
    Answer::Refused { number, segment, byte, element }
}

const W1_SEGMENTS: [Segment; 7] = [
    [0, 11, 1, 0],
    [12, 19, 2, 0],
    [32, 10, 18, 1],
    [43, 10, 18, 2],
    [54, 5, 46, 2],
    [60, 7, 64, 2],
    [68, 9, 79, 0],
];
const W1_LEVELS: [Level; 2] = [[3, 0, 1, 1], [4, 1, 2, 2]];

#[test]
fn w1_is_accepted_with_its_tables() {
    let printed = "ST*842*0001~BNR*11*NR7*20240301~HL*1**RP*1~HL*2*1*I*0~NCD*1~NCA**R1~SE*7*0001~";
    assert_eq!(joined(&W1), printed);
    for rooms in [(28, 8), (29, 9), (30, 10), (31, 11), (32, 12), (50, 60)] {
        let (answer, segments, levels) = given(printed, rooms);
        assert_eq!(answer, Answer::Accepted { segments: 7, levels: 2, bytes: 78 });
        assert_eq!(answer.numbers(), [0, 7, 2, 78]);
        assert_eq!(segments, W1_SEGMENTS);
        assert_eq!(levels, W1_LEVELS);
    }
}

/// The refusal and the records before it, which are W1's.
fn refusal_in_w1(text: &str, rooms: (usize, usize), answer: Answer, levels: usize) {
    let (came, segments, level_records) = given(text, rooms);
    assert_eq!(came, answer, "{text}");
    let [_, segment, ..] = answer.numbers();
    assert_eq!(segments, W1_SEGMENTS[..segment as usize - 1]);
    assert_eq!(level_records, W1_LEVELS[..levels]);
}

#[test]
fn w2_to_w10() {
    refusal_in_w1(&w1_with(4, "HL*2*1*F*0"), ROOM, refused(14, 4, 43, 2), 1);
    refusal_in_w1(&w1_with(4, "HL*2*9*I*0"), ROOM, refused(13, 4, 43, 2), 1);
    refusal_in_w1(&w1_with(4, "HL*1*1*I*0"), ROOM, refused(12, 4, 43, 1), 1);
    refusal_in_w1(&w1_with(7, "SE*6*0001"), ROOM, refused(16, 7, 68, 1), 2);
    refusal_in_w1(&joined(&[W1[0], W1[1], W1[2], "SE*4*0001"]), ROOM, refused(15, 4, 43, 0), 1);
    refusal_in_w1("", ROOM, refused(3, 1, 0, 0), 0);
    refusal_in_w1(&joined(&[&W1[..4], &W1[5..]].concat()), ROOM, refused(7, 5, 54, 0), 2);
    refusal_in_w1(&w1_with(6, "NCA**R1**5"), ROOM, refused(11, 6, 60, 4), 2);
    for segment_numbers in [24, 25, 26, 27] {
        refusal_in_w1(&joined(&W1), (segment_numbers, 20), refused(17, 7, 68, 0), 2);
    }
}

#[test]
fn w11_and_w12() {
    let accepted = |dtm: &str| given(&in_heading(&[dtm]), ROOM).0.numbers()[0] == 0;
    let refusal = |dtm: &str| given(&in_heading(&[dtm]), ROOM).0;
    assert!(accepted("DTM*405*20240229"));
    assert_eq!(refusal("DTM*405*20230229"), refused(10, 3, 18, 2));
    assert!(accepted("DTM*405**2359"));
    assert_eq!(refusal("DTM*405**23595"), refused(10, 3, 18, 3));
}

/// The rows of an accepted report.
fn rows(text: &str) -> Vec<u64> {
    let (answer, segments, _) = given(text, ROOM_FOR_EVERY_ROW);
    assert!(matches!(answer, Answer::Accepted { .. }), "{answer:?}");
    segments.iter().map(|record| record[2]).collect()
}

#[test]
fn hl02_is_a_text_and_not_a_position() {
    let (_, _, levels) = given(&after_bnr(&["HL*2**I", "HL*1*2*F", "HL*3*1*PC", "HL*4*2*SN"]), ROOM);
    assert_eq!(levels, [[3, 0, 1, 2], [4, 1, 2, 3], [5, 2, 3, 4], [6, 1, 2, 5]]);
}

#[test]
fn a_ref_after_pwk_has_row_10() {
    assert_eq!(rows(&in_heading(&["REF*A", "PWK*A", "REF*B"])), [1, 2, 3, 9, 10, 18, 79]);
}

#[test]
fn a_third_n2_is_refused_and_a_new_pass_counts_anew() {
    let (answer, segments, _) = given(&in_heading(&["N1*SU*A", "N2*A", "N2*B", "N2*C"]), ROOM_FOR_EVERY_ROW);
    assert_eq!(answer, refused(7, 6, 36, 0));
    assert_eq!(segments.len(), 5);
    assert_eq!(
        rows(&in_heading(&["N1*SU*A", "N2*A", "N2*B", "N1*SU*C", "N2*D", "N2*E"])),
        [1, 2, 12, 13, 13, 12, 13, 13, 18, 79]
    );
}

#[test]
fn an_unfilled_mark_is_found_at_se_and_the_hl_is_recorded() {
    let (answer, segments, levels) = given(&after_bnr(&["HL*1**RP*1", "NCD*1"]), ROOM_FOR_EVERY_ROW);
    assert_eq!(answer, refused(15, 5, 35, 0));
    assert_eq!((segments.len(), levels.len()), (4, 1));
}

#[test]
fn four_levels_deep() {
    let (answer, _, levels) =
        given(&after_bnr(&["HL*1**RP*1", "HL*2*1*I*1", "HL*3*2*F*1", "HL*4*3*SN*0"]), ROOM_FOR_EVERY_ROW);
    assert_eq!(answer.numbers()[..3], [0, 7, 4]);
    assert_eq!(levels, [[3, 0, 1, 1], [4, 1, 2, 2], [5, 2, 3, 3], [6, 3, 4, 5]]);
}

#[test]
fn rows_of_the_deepest_loops() {
    let text = in_fault(&[
        "NTE*GEN*A", "DTM*002*20240301", "REF*A", "QTY*1", "AMT*1", "MEA*1", "RC*1", "EFI*1", "BIN*1*A",
        "N1*SU*A", "N2*A", "N3*A", "N4*A", "REF*A", "PER*A", "LM*A", "LQ*A", "NCA**R1", "NTE*GEN*B",
        "DTM*002*20240301", "REF*B", "PWK*A", "REF*A", "DTM*002**0000", "N1*SU*A", "N2*A", "N3*A", "N4*A",
        "REF*A", "PER*A", "LM*A", "LQ*A",
    ]);
    let mut expected = vec![1, 2, 18];
    expected.extend(46..=79);
    let (answer, segments, _) = given(&text, ROOM_FOR_EVERY_ROW);
    assert!(matches!(answer, Answer::Accepted { .. }), "{answer:?}");
    assert_eq!(segments.iter().map(|record| record[2]).collect::<Vec<u64>>(), expected);
}

#[test]
fn every_row_in_one_report() {
    let (answer, segments, _) = given(&after_bnr(&EVERY_ROW), ROOM_FOR_EVERY_ROW);
    assert!(matches!(answer, Answer::Accepted { segments: 79, .. }), "{answer:?}");
    assert_eq!(segments.iter().map(|record| record[2]).collect::<Vec<u64>>(), (1..=79).collect::<Vec<u64>>());
}

#[test]
fn answers_1_and_2_write_nothing() {
    for (set, answer, length) in [
        (Separators::new(b'*', b'*', b'~'), [1, 0, 0, 0], 78),
        (Separators::new(b'*', b'*', b'~'), [1, 0, 0, 0], 1_048_577),
        (Separators::STANDARD, [2, 0, 0, 0], 1_048_577),
        (Separators::STANDARD, [0, 7, 2, 78], 1_048_576),
    ] {
        let mut input = joined(&W1).into_bytes();
        input.resize(length, b'~');
        for line_ends in LineEnds::BOTH {
            let (mut segments, mut levels) = lent(ROOM);
            let read = read(&input, set, line_ends, Profile::Report, &mut segments, &mut levels);
            assert_eq!(read.numbers(), answer);
            assert_eq!((segments, levels) == lent(ROOM), answer[0] != 0);
        }
    }
}

#[test]
fn a_long_report_counts_in_many_digits() {
    let mut segments = vec!["ST*842*0001".to_string(), "BNR*1".to_string(), "HL*1**I".to_string()];
    segments.extend((0..80_000).map(|at| format!("QTY*{at}")));
    segments.push("SE*80004*0001".to_string());
    let text = joined(&segments);
    let (mut table, mut levels) = lent((SEGMENT_NUMBERS * 80_004, LEVEL_NUMBERS));
    let (set, line_ends) = (Separators::STANDARD, LineEnds::Skipped);
    let answer = read(text.as_bytes(), set, line_ends, Profile::Report, &mut table, &mut levels);
    assert_eq!(answer.numbers(), [0, 80_004, 1, text.len() as u64]);
    assert_eq!(table[SEGMENT_NUMBERS * 80_003..], [text.len() as u64 - 14, 13, 79, 0]);
}
