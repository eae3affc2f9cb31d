//! Tables that own their records.

use stormhlaw::{
    Code, How, Level, Reason, Refusal, SegmentRecord, Separators, Tables, DEFAULT_LEVELS, LONGEST,
};

const W1: &[u8] = b"ST*842*0001~BNR*11*NR7*20240301~HL*1**RP*1~HL*2*1*I*0~NCD*1~NCA**R1~SE*7*0001~";
const W1_SEGMENTS: [&str; 7] =
    ["ST*842*0001", "BNR*11*NR7*20240301", "HL*1**RP*1", "HL*2*1*I*0", "NCD*1", "NCA**R1", "SE*7*0001"];
const STANDARD: Separators = Separators::STANDARD;
const NEW: Separators = Separators { element: b'|', component: b'^', terminator: b'\'' };

/// The texts of the segments that the tables tell of.
fn texts<'a>(tables: &Tables, report: &'a [u8]) -> Vec<&'a str> {
    let bytes = tables.segments().iter().map(|segment| segment.bytes(report).unwrap());
    bytes.map(|bytes| std::str::from_utf8(bytes).unwrap()).collect()
}

/// The names of the levels that the tables tell of.
fn names<'a>(tables: &Tables, report: &'a [u8]) -> Vec<&'a [u8]> {
    let hls = tables.levels().iter().map(|level| level.hl(tables.segments()).unwrap());
    hls.map(|hl| hl.segment(report, STANDARD).unwrap().element(1)).collect()
}

/// A report of that many items, with no other segments than it must have.
fn items(count: usize) -> Vec<u8> {
    let mut report = String::from("ST*842*0001~BNR*11*NR7*20240301~");
    report.extend((1..=count).map(|item| format!("HL*{item}**I~")));
    report += &format!("SE*{}*0001~", count + 3);
    report.into_bytes()
}

/// A report of that many segments of five bytes, and the few it must have.
fn short_segments(count: usize) -> Vec<u8> {
    let mut report = String::from("ST*842*0001~BNR*11*NR7*20240301~HL*1**I~NCD*1~");
    report += &"RC*4~".repeat(count);
    report += &format!("SE*{}*0001~", count + 5);
    report.into_bytes()
}

#[test]
fn an_accepted_report_gives_all_its_records() {
    let mut tables = Tables::for_input(W1);
    assert_eq!((tables.segments(), tables.levels()), (&[][..], &[][..]));
    let accepted = tables.read(W1, STANDARD, How::new()).unwrap();
    assert_eq!((accepted.segments, accepted.levels, accepted.bytes), (7, 2, 78));
    assert_eq!(texts(&tables, W1), W1_SEGMENTS);
    assert_eq!(names(&tables, W1), [b"1", b"2"]);
    let codes: Vec<_> = tables.levels().iter().map(|level| level.code().unwrap()).collect();
    assert_eq!(codes, [Code::Report, Code::Item]);
}

#[test]
fn a_refused_report_gives_the_records_before_it() {
    let mut tables = Tables::for_input(W1);
    tables.read(W1, STANDARD, How::new()).unwrap();
    let refusal = tables.read(&W1[..50], STANDARD, How::new()).unwrap_err();
    assert_eq!(refusal, Refusal { reason: Reason::NoTerminator, segment: 4, byte: 43, element: 0 });
    assert_eq!(texts(&tables, W1), W1_SEGMENTS[..3]);
    assert_eq!(names(&tables, W1), [b"1"]);
    tables.read(W1, Separators { component: b'*', ..STANDARD }, How::new()).unwrap_err();
    assert_eq!((tables.segments(), tables.levels()), (&[][..], &[][..]));
}

#[test]
fn rewriting_gives_the_same_records_and_the_output() {
    let mut tables = Tables::for_input(W1);
    let mut output = [0; 78];
    assert_eq!(tables.rewrite(W1, STANDARD, How::strict(), NEW, &mut output).unwrap().bytes, 78);
    assert_eq!(texts(&tables, &output)[3], "HL|2|1|I|0");
    assert_eq!(tables.levels().len(), 2);
    let refusal = tables.rewrite(&output, NEW, How::strict(), STANDARD, &mut [0; 77]).unwrap_err();
    assert_eq!(refusal.reason, Reason::OutputTooShort);
    assert_eq!((tables.segments().len(), tables.levels().len()), (7, 2));
}

#[test]
fn default_room_is_enough_for_every_segment() {
    let report = short_segments(200_000);
    let mut tables = Tables::for_input(&report);
    assert_eq!(tables.read(&report, STANDARD, How::new()).unwrap().segments, 200_005);
    assert_eq!(tables.segments().len(), 200_005);
}

#[test]
fn default_room_is_for_so_many_levels_and_more_is_asked_for() {
    assert_eq!(DEFAULT_LEVELS, 4_096);
    let most = items(DEFAULT_LEVELS);
    assert_eq!(Tables::for_input(&most).read(&most, STANDARD, How::new()).unwrap().levels, DEFAULT_LEVELS);
    let more = items(DEFAULT_LEVELS + 1);
    let mut tables = Tables::for_input(&more);
    let refusal = tables.read(&more, STANDARD, How::new()).unwrap_err();
    assert_eq!((refusal.reason, refusal.segment), (Reason::NoRoom, DEFAULT_LEVELS + 3));
    assert_eq!(tables.levels().len(), DEFAULT_LEVELS);
    let mut tables = Tables::with_room(more.len() / 5, DEFAULT_LEVELS + 1);
    assert_eq!(tables.read(&more, STANDARD, How::new()).unwrap().levels, DEFAULT_LEVELS + 1);
}

#[test]
fn room_that_is_named_is_the_room() {
    for (segments, levels, refused) in [(0, 0, 1), (6, 2, 7), (7, 1, 4), (2, 2, 3)] {
        let refusal = Tables::with_room(segments, levels).read(W1, STANDARD, How::new()).unwrap_err();
        assert_eq!((refusal.reason, refusal.segment), (Reason::NoRoom, refused));
    }
    assert!(Tables::with_room(7, 2).read(W1, STANDARD, How::new()).is_ok());
}

#[test]
fn no_length_and_no_room_is_too_much() {
    let mut tables = Tables::with_room(usize::MAX, usize::MAX);
    assert!(tables.read(W1, STANDARD, How::new()).is_ok());
    let long = vec![b'~'; 3 * LONGEST];
    let refusal = Tables::for_input(&long).read(&long, STANDARD, How::new()).unwrap_err();
    assert_eq!(refusal.reason, Reason::InputTooLong);
    let refusal = Tables::for_input(b"").read(b"", STANDARD, How::new()).unwrap_err();
    assert_eq!(refusal.reason, Reason::NoTerminator);
}

#[test]
fn a_level_without_its_segment_has_no_hl() {
    let segments = [SegmentRecord { start: 1, length: 2, row: 18, level: 1 }];
    let level = |segment| Level { segment, ..Level::default() };
    assert_eq!(level(1).hl(&segments), Some(&segments[0]));
    for segment in [0, 2, u64::MAX] {
        assert_eq!(level(segment).hl(&segments), None);
    }
}
