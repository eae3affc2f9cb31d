//! Line ends between segments: skipped by default, refused by a strict reading, and so by every rewriting.

use stormhlaw::{
    raw, rewrite, Accepted, How, Level, LineEnds, Reason, Refusal, SegmentRecord, Separators, Tables,
};

const W1: [&str; 7] =
    ["ST*842*0001", "BNR*11*NR7*20240301", "HL*1**RP*1", "HL*2*1*I*0", "NCD*1", "NCA**R1", "SE*7*0001"];
const ROWS_AND_LEVELS: [(u64, u64); 7] = [(1, 0), (2, 0), (18, 1), (18, 2), (46, 2), (64, 2), (79, 0)];
const STANDARD: Separators = Separators::STANDARD;
const NEW: Separators = Separators { element: b'|', component: b'^', terminator: b'\'' };

/// What is skipped behind a terminator.
const ENDS: [&str; 4] = ["", "\r\n", "\n", "\r"];

/// What is more than that, and how many of its bytes are skipped.
const MORE: [(&str, usize); 5] = [("\n\r", 1), ("\r\r\n", 1), ("\n\n", 1), ("\r\n\r\n", 2), ("\r\n\n", 2)];

/// W1 with an end behind each segment: the first of them behind the first segment, and so on, again and again.
fn ended(ends: &[&str]) -> Vec<u8> {
    let ends = ends.iter().cycle();
    W1.iter().zip(ends).map(|(segment, end)| format!("{segment}~{end}")).collect::<String>().into_bytes()
}

/// The records of W1's segments where these ends stand behind them, and how many bytes it takes then.
fn records(ends: &[&str]) -> (Vec<SegmentRecord>, usize) {
    let (mut records, mut start, mut used) = (Vec::new(), 0, 0);
    for ((segment, (row, level)), end) in W1.iter().zip(ROWS_AND_LEVELS).zip(ends.iter().cycle()) {
        records.push(SegmentRecord { start: start as u64, length: segment.len() as u64, row, level });
        used = start + segment.len() + 1;
        start = used + end.len();
    }
    (records, used)
}

fn refused(reason: Reason, segment: usize, byte: usize, element: usize) -> Result<Accepted, Refusal> {
    Err(Refusal { reason, segment, byte, element })
}

fn read(report: &[u8], how: How) -> Result<Accepted, Refusal> {
    Tables::for_input(report).read(report, STANDARD, how)
}

/// Tests that W1 with these ends is accepted, and where its segments stand.
fn accepted(ends: &[&str]) {
    let (report, (wanted, bytes)) = (ended(ends), records(ends));
    let mut tables = Tables::for_input(&report);
    let answer = tables.read(&report, STANDARD, How::new());
    assert_eq!(answer, Ok(Accepted { segments: 7, levels: 2, bytes }), "{ends:?}");
    assert_eq!(tables.segments(), wanted, "{ends:?}");
    let texts = tables.segments().iter().map(|segment| segment.bytes(&report).unwrap());
    assert!(texts.eq(W1.map(str::as_bytes)), "{ends:?}");
    let levels: Vec<_> = tables.levels().iter().map(|level| (level.segment, level.parent)).collect();
    assert_eq!(levels, [(3, 0), (4, 1)], "{ends:?}");
}

#[test]
fn by_default_line_ends_are_skipped() {
    for end in ENDS {
        accepted(&[end]);
    }
    accepted(&["\r\n", "", "\n", "\r"]);
    accepted(&["", "", "\r", "\r\n", "\n"]);
}

#[test]
fn strictly_a_line_end_belongs_to_the_segment_behind_it() {
    for end in &ENDS[1..] {
        let report = ended(&[end]);
        assert_eq!(read(&report, How::strict()), refused(Reason::ByteUnfit, 2, 12, 0), "{end:?}");
        let last = ended(&["", "", "", "", "", end]);
        assert_eq!(read(&last, How::strict()), refused(Reason::ByteUnfit, 7, 68, 0), "{end:?}");
    }
    assert_eq!(read(&ended(&[""]), How::strict()).unwrap().bytes, 78);
}

#[test]
fn what_is_more_belongs_to_the_segment_behind_it() {
    for (end, skipped) in MORE {
        let answer = read(&ended(&[end]), How::new());
        assert_eq!(answer, refused(Reason::ByteUnfit, 2, 12 + skipped, 0), "{end:?}");
    }
    assert_eq!(read(&ended(&["\r\n "]), How::new()), refused(Reason::TagUnknown, 2, 14, 0));
}

#[test]
fn none_is_skipped_before_the_st_inside_a_segment_or_behind_the_se() {
    for end in &ENDS[1..] {
        let before = [end.as_bytes(), &ended(&[""])].concat();
        assert_eq!(read(&before, How::new()), refused(Reason::ByteUnfit, 1, 0, 0), "{end:?}");
        let inside = String::from_utf8(ended(&[""])).unwrap().replace("NR7", &format!("NR7{end}"));
        assert_eq!(read(inside.as_bytes(), How::new()), refused(Reason::ByteUnfit, 2, 12, 2), "{end:?}");
        assert_eq!(read(&ended(&["", "", "", "", "", "", end]), How::new()).unwrap().bytes, 78);
    }
}

#[test]
fn an_end_of_the_input_is_told_behind_the_line_end() {
    for (end, skipped) in [("", 0), ("\r", 1), ("\n", 1), ("\r\n", 2), ("\r\n\r\n", 2), ("\r\nBNR", 2)] {
        let cut_off = format!("ST*842*0001~{end}").into_bytes();
        assert_eq!(read(&cut_off, How::new()), refused(Reason::NoTerminator, 2, 12 + skipped, 0), "{end:?}");
        assert_eq!(read(&cut_off, How::strict()), refused(Reason::NoTerminator, 2, 12, 0), "{end:?}");
    }
}

#[test]
fn a_line_end_that_separates_is_not_skipped() {
    let lines = Separators { terminator: b'\n', ..STANDARD };
    let returns = Separators { terminator: b'\r', ..STANDARD };
    let report = String::from_utf8(ended(&["\r"])).unwrap();
    // Behind an LF that ends a segment a CR is skipped, and an LF behind such a CR.
    let lines_with_returns = (report.replace('~', "\n"), lines);
    let returns_with_lines = (report.replace("~\r", "\r\n"), returns);
    for (bytes, separators) in [lines_with_returns, returns_with_lines] {
        let mut tables = Tables::for_input(bytes.as_bytes());
        let answer = tables.read(bytes.as_bytes(), separators, How::new());
        assert_eq!(answer, Ok(Accepted { segments: 7, levels: 2, bytes: 84 }));
        assert_eq!(tables.segments(), records(&["\r"]).0);
    }
    // A second LF is the terminator of a segment without a tag.
    let empty_line = report.replace("~\r", "\n\n");
    let answer = Tables::for_input(empty_line.as_bytes()).read(empty_line.as_bytes(), lines, How::new());
    assert_eq!(answer, refused(Reason::TagUnknown, 2, 12, 0));
    // An LF that separates components stays before the tag, behind the CR that is skipped.
    let (report, components) = (ended(&["\r\n"]), Separators { component: b'\n', ..STANDARD });
    let answer = Tables::for_input(&report).read(&report, components, How::new());
    assert_eq!(answer, refused(Reason::TagUnknown, 2, 13, 0));
}

#[test]
fn an_attachment_keeps_its_line_ends() {
    let report =
        b"ST*842*0001~\r\nBNR*11*NR7*20240301~\nHL*1**I~NCD*1~\rEFI*00~\nBIN*4*\r\n\r\n~\r\nSE*7*0001~";
    let mut tables = Tables::for_input(report);
    let accepted = tables.read(report, STANDARD, How::new()).unwrap();
    assert_eq!((accepted.segments, accepted.bytes), (7, report.len()));
    let bin = tables.segments()[5];
    assert_eq!(bin, SegmentRecord { start: 58, length: 10, row: 55, level: 1 });
    assert_eq!(bin.segment(report, STANDARD).unwrap().component(2, 1), b"\r\n\r\n");
}

#[test]
fn rewriting_is_strict_whatever_it_is_told() {
    let (plain, lines) = (ended(&[""]), ended(&["\r\n"]));
    for how in [How::new(), How::strict()] {
        let mut output = [b'.'; 100];
        let (mut segments, mut levels) = ([SegmentRecord::default(); 10], [Level::default(); 5]);
        let answer = rewrite(&lines, STANDARD, how, NEW, &mut segments, &mut levels, &mut output);
        assert_eq!(answer, refused(Reason::ByteUnfit, 2, 12, 0));
        assert_eq!(output, [b'.'; 100]);
        let answer = rewrite(&plain, STANDARD, how, NEW, &mut segments, &mut levels, &mut output);
        assert_eq!(answer, Ok(Accepted { segments: 7, levels: 2, bytes: 78 }));
        assert!(output.starts_with(b"ST|842|0001'BNR|11|NR7|20240301'HL|1||RP|1'"));
    }
}

#[test]
fn the_choices_have_their_flags() {
    assert_eq!((How::new().flags(), How::strict().flags()), (0, 1));
    assert_eq!((How::default(), LineEnds::default()), (How::new(), LineEnds::Skipped));
    let mut how = How::new();
    how.line_ends = LineEnds::Strict;
    assert_eq!(how, How::strict());
    assert_ne!(how, How::new());
}

#[test]
fn bits_without_a_name_do_not_matter() {
    let lines = ended(&["\r\n"]);
    let (skipped, strict) = ([0, 7, 2, 90], [5, 2, 12, 0]);
    for unnamed in [0, 4, 1 << 8, 1 << 32, 1 << 63, !3] {
        let (mut segments, mut levels) = ([0; 28], [0; 8]);
        assert_eq!(raw::read(&lines, STANDARD, unnamed, &mut segments, &mut levels), skipped, "{unnamed}");
        let how = unnamed | raw::STRICT;
        assert_eq!(raw::read(&lines, STANDARD, how, &mut segments, &mut levels), strict, "{how}");
        for how in [unnamed, how] {
            let mut output = [b'.'; 90];
            let answer = raw::rewrite(&lines, STANDARD, how, NEW, &mut segments, &mut levels, &mut output);
            assert_eq!((answer, output), (strict, [b'.'; 90]), "{how}");
        }
    }
}
