//! Storage-quality replies: the rows of their profile, their levels, and that every reading and rewriting is told the profile.

use stormhlaw::{
    raw, Accepted, Code, How, Level, LineEnds, Profile, Reason, Refusal, SegmentRecord, Separators, Tables,
};

const REPLY: [&str; 8] = [
    "ST*842*0001", "BNR*11*NR7*20240301", "HL*1**RP", "HL*2**RB", "HL*3**I", "NCD*1", "NCA**R1", "SE*8*0001",
];

/// Start, length, row and level of its segments.
const SEGMENTS: [[u64; 4]; 8] = [
    [0, 11, 1, 0],
    [12, 19, 2, 0],
    [32, 8, 18, 1],
    [41, 8, 18, 2],
    [50, 7, 18, 3],
    [58, 5, 46, 3],
    [64, 7, 64, 3],
    [72, 9, 79, 0],
];

/// Segment, parent, depth and code of its levels.
const LEVELS: [[u64; 4]; 3] = [[3, 0, 1, 1], [4, 0, 1, 6], [5, 0, 1, 2]];

const ACCEPTED: Accepted = Accepted { segments: 8, levels: 3, bytes: 82 };

/// The worked report W1, which is no reply: its first HL has an HL04.
const W1: &str = "ST*842*0001~BNR*11*NR7*20240301~HL*1**RP*1~HL*2*1*I*0~NCD*1~NCA**R1~SE*7*0001~";

/// A reply with many of the rows: N1 stands in rows 12, 56 and 71.
const EXAMPLE: &[u8] = include_bytes!("../../../examples/reply.edi");
const EXAMPLE_SEGMENTS: [[u64; 4]; 19] = [
    [0, 11, 1, 0],
    [12, 19, 2, 0],
    [32, 16, 12, 0],
    [49, 19, 17, 0],
    [69, 8, 18, 1],
    [78, 7, 18, 2],
    [86, 21, 19, 2],
    [108, 16, 23, 2],
    [125, 10, 24, 2],
    [136, 12, 26, 2],
    [149, 5, 30, 2],
    [155, 8, 31, 2],
    [164, 8, 18, 3],
    [173, 5, 46, 3],
    [179, 23, 47, 3],
    [203, 11, 56, 3],
    [215, 7, 64, 3],
    [223, 16, 71, 3],
    [240, 10, 79, 0],
];

const STANDARD: Separators = Separators::STANDARD;
const NEW: Separators = Separators { element: b'|', component: b'^', terminator: b'\'' };

/// The strict reading of a reply.
const STRICTLY: How = How::strict().with_profile(Profile::StorageReply);

fn joined(segments: &[&str]) -> String {
    segments.iter().map(|segment| format!("{segment}~")).collect()
}

/// The reply with other segments in place of its own from that number on, which counts from 1.
fn with(number: usize, segments: &[&str]) -> String {
    joined(&[&REPLY[..number - 1], segments].concat())
}

fn read(report: &str, how: How) -> Result<Accepted, Refusal> {
    Tables::for_input(report.as_bytes()).read(report.as_bytes(), STANDARD, how)
}

fn refused(reason: Reason, segment: usize, byte: usize, element: usize) -> Result<Accepted, Refusal> {
    Err(Refusal { reason, segment, byte, element })
}

fn segment_record([start, length, row, level]: [u64; 4]) -> SegmentRecord {
    SegmentRecord { start, length, row, level }
}

fn level_record([segment, parent, depth, code]: [u64; 4]) -> Level {
    Level { segment, parent, depth, code }
}

#[test]
fn a_reply_has_levels_without_parents() {
    let report = joined(&REPLY);
    for how in [How::reply(), STRICTLY] {
        let mut tables = Tables::for_input(report.as_bytes());
        assert_eq!(tables.read(report.as_bytes(), STANDARD, how), Ok(ACCEPTED));
        assert_eq!(tables.segments(), SEGMENTS.map(segment_record));
        assert_eq!(tables.levels(), LEVELS.map(level_record));
        let codes: Vec<_> = tables.levels().iter().map(|level| level.code().unwrap()).collect();
        assert_eq!(codes, [Code::Report, Code::Response, Code::Item]);
    }
}

#[test]
fn the_example() {
    let mut tables = Tables::for_input(EXAMPLE);
    let accepted = tables.read(EXAMPLE, STANDARD, How::reply());
    assert_eq!(accepted, Ok(Accepted { segments: 19, levels: 3, bytes: 251 }));
    assert_eq!(tables.segments(), EXAMPLE_SEGMENTS.map(segment_record));
    assert_eq!(tables.levels(), [[5, 0, 1, 1], [6, 0, 1, 2], [13, 0, 1, 6]].map(level_record));
    let answer = tables.read(EXAMPLE, STANDARD, How::new());
    assert_eq!(answer, refused(Reason::LevelNotPermitted, 13, 164, 3));
    assert_eq!((tables.segments().len(), tables.levels().len()), (12, 2));
}

/// Every row of the profile, at its place: in the heading, at a level, and at a fault.
#[test]
fn every_row_of_the_profile() {
    let segments = [
        "ST*842*0001", "BNR*11*NR7*20240301", "N1*ST*A", "PER*IC*A", "HL*1**I", "LIN**FS*1",
        "DTM*050*20240305", "REF*TN*1", "CS*1", "QTY*01*1", "LM*DF", "LQ*DE*1", "NCD*1", "NTE**A",
        "DTM*050*20240305", "REF*TN*1", "AMT*1*1", "N1*ST*A", "NCA**R1", "N1*ST*A", "SE*21*0001",
    ];
    let report = joined(&segments);
    let mut tables = Tables::for_input(report.as_bytes());
    tables.read(report.as_bytes(), STANDARD, How::reply()).unwrap();
    let rows: Vec<_> = tables.segments().iter().map(|segment| segment.row).collect();
    assert_eq!(rows, [1, 2, 12, 17, 18, 19, 23, 24, 25, 26, 30, 31, 46, 47, 48, 49, 51, 56, 64, 71, 79]);
}

#[test]
fn a_row_that_is_not_in_the_profile() {
    let other = Reason::RowNotInProfile;
    for heading in ["REF*TN*S17", "DTM*050*20240305", "PID*F", "MEA*A", "PWK*A"] {
        assert_eq!(read(&with(3, &[heading]), How::reply()), refused(other, 3, 32, 0), "{heading}");
    }
    // N2 behind the N1 of the heading, which takes seven bytes and its terminator.
    assert_eq!(read(&with(3, &["N1*ST*A", "N2*B"]), How::reply()), refused(other, 4, 40, 0));
    for at_a_level in ["PID*F", "TMD*A", "MEA*A", "FA1*A", "SPS*A"] {
        assert_eq!(read(&with(6, &[at_a_level]), How::reply()), refused(other, 6, 58, 0), "{at_a_level}");
    }
    for at_a_fault in ["QTY*01*1", "RC*1", "EFI*00", "LM*DF"] {
        assert_eq!(read(&with(7, &[at_a_fault]), How::reply()), refused(other, 7, 64, 0), "{at_a_fault}");
    }
    for at_an_action in ["NTE*GEN*A", "DTM*050*20240305", "REF*TN*S17", "PWK*A", "LM*DF"] {
        assert_eq!(read(&with(8, &[at_an_action]), How::reply()), refused(other, 8, 72, 0), "{at_an_action}");
    }
    // Its elements are not looked at: ruled, the DTM would lack its first.
    assert_eq!(read(&with(3, &["DTM**A"]), How::reply()), refused(other, 3, 32, 0));
    assert_eq!(read(&with(3, &["DTM**A"]), How::new()), refused(Reason::ElementMissing, 3, 32, 1));
}

#[test]
fn what_comes_before_the_row() {
    assert_eq!(read(&with(7, &["BIN*1*A"]), How::reply()), refused(Reason::NoRowFits, 7, 64, 0));
    assert_eq!(read(&with(7, &["BIN*0*A"]), How::reply()), refused(Reason::ValueUnfit, 7, 64, 1));
    assert_eq!(read(&with(3, &["REF*"]), How::reply()), refused(Reason::EmptyAtTheEnd, 3, 32, 1));
    assert_eq!(read(&with(3, &["REF*\t"]), How::reply()), refused(Reason::ByteUnfit, 3, 32, 1));
    assert_eq!(read(&with(3, &["NCD*1"]), How::reply()), refused(Reason::NoRowFits, 3, 32, 0));
}

#[test]
fn it_leaves_what_stands_before() {
    let report = with(8, &["LM*DF"]);
    let mut tables = Tables::for_input(report.as_bytes());
    tables.read(report.as_bytes(), STANDARD, How::reply()).unwrap_err();
    assert_eq!(tables.segments(), &SEGMENTS.map(segment_record)[..7]);
    assert_eq!(tables.levels(), LEVELS.map(level_record));
}

#[test]
fn no_parent_and_no_mark() {
    let second = |segment, how| read(&with(4, &[segment, "SE*5*0001"]), how);
    for (hl, element) in [
        ("HL*2*1*RB", 2),
        ("HL*2*9*RB", 2),
        ("HL*1*1*F*0", 2),
        ("HL*2*1", 2),
        ("HL*2**RB*0", 4),
        ("HL*2**RB*1", 4),
        ("HL*2**RB*0*X", 4),
        ("HL*2**RB**X", 5),
    ] {
        assert_eq!(second(hl, How::reply()), refused(Reason::TooMany, 4, 41, element), "{hl}");
    }
    // In the first profile the same two are read: an item under the report level.
    assert_eq!(second("HL*2*1*I*0", How::new()).unwrap().levels, 2);
    assert_eq!(second("HL*2*1*I*0", How::reply()), refused(Reason::TooMany, 4, 41, 2));
}

#[test]
fn codes_of_each_profile() {
    let second = |segment, how| read(&with(4, &[segment, "SE*5*0001"]), how);
    let unknown = refused(Reason::LevelNotPermitted, 4, 41, 3);
    for hl in ["HL*2**F", "HL*2**PC", "HL*2**SN", "HL*2**X"] {
        assert_eq!(second(hl, How::reply()), unknown, "{hl}");
    }
    for hl in ["HL*2**RB", "HL*2*1*RB", "HL*2*1*RB*0"] {
        assert_eq!(second(hl, How::new()), unknown, "{hl}");
    }
    for hl in ["HL*2**RB", "HL*2**I", "HL*2**RP"] {
        assert_eq!(second(hl, How::reply()).unwrap().levels, 2, "{hl}");
    }
    // The first level may be any of the three, also a response.
    assert!(read(&with(3, &["HL*1**RB", "SE*4*0001"]), How::reply()).is_ok());
}

#[test]
fn no_hl01_repeats() {
    for hl in ["HL*1**RB", "HL*1**F"] {
        assert_eq!(read(&with(4, &[hl]), How::reply()), refused(Reason::LevelUsedBefore, 4, 41, 1), "{hl}");
    }
    assert_eq!(read(&with(5, &["HL*2**I"]), How::reply()), refused(Reason::LevelUsedBefore, 5, 50, 1));
}

#[test]
fn elements_and_the_closing_are_as_in_any_report() {
    assert_eq!(read(&with(4, &["HL***RB"]), How::reply()), refused(Reason::ElementMissing, 4, 41, 1));
    assert_eq!(read(&with(4, &["HL*2**ABC"]), How::reply()), refused(Reason::ValueUnfit, 4, 41, 3));
    assert_eq!(read(&with(7, &["NCA**R1**5"]), How::reply()), refused(Reason::NoteBroken, 7, 64, 4));
    assert_eq!(read(&with(8, &["SE*7*0001"]), How::reply()), refused(Reason::ClosingWrong, 8, 72, 1));
    assert_eq!(read(&with(8, &["SE*8*0002"]), How::reply()), refused(Reason::ClosingWrong, 8, 72, 2));
    let mut tables = Tables::with_room(8, 2);
    let answer = tables.read(joined(&REPLY).as_bytes(), STANDARD, How::reply());
    assert_eq!(answer, refused(Reason::NoRoom, 5, 50, 0));
}

/// Line ends and the profile are two choices: each of the four together.
#[test]
fn both_profiles_with_and_without_line_ends() {
    let (reply, report) = (joined(&REPLY).replace('~', "~\r\n"), W1.replace('~', "~\r\n"));
    let strict = refused(Reason::ByteUnfit, 2, 12, 0);
    // Two bytes behind each of the seven segments before the SE.
    assert_eq!(read(&reply, How::reply()), Ok(Accepted { bytes: 96, ..ACCEPTED }));
    assert_eq!(read(&reply, STRICTLY), strict);
    assert_eq!(read(&reply, How::new()), refused(Reason::LevelNotPermitted, 4, 47, 3));
    assert_eq!(read(&reply, How::strict()), strict);
    assert_eq!(read(&report, How::new()), Ok(Accepted { segments: 7, levels: 2, bytes: 90 }));
    assert_eq!(read(&report, How::strict()), strict);
    assert_eq!(read(&report, How::reply()), refused(Reason::TooMany, 3, 36, 4));
    assert_eq!(read(&report, STRICTLY), strict);
    assert_eq!(read(W1, STRICTLY), refused(Reason::TooMany, 3, 32, 4));
    assert_eq!(read(&joined(&REPLY), How::strict()), refused(Reason::LevelNotPermitted, 4, 41, 3));
}

/// The answer of a rewriting and the output, whose bytes were all `.` before.
fn rewritten(report: &str, how: How) -> (Result<Accepted, Refusal>, String) {
    let mut output = [b'.'; 84];
    let answer =
        Tables::for_input(report.as_bytes()).rewrite(report.as_bytes(), STANDARD, how, NEW, &mut output);
    (answer, String::from_utf8(output.to_vec()).unwrap())
}

#[test]
fn a_rewriting_is_told_the_profile() {
    let wanted = "ST|842|0001'BNR|11|NR7|20240301'HL|1||RP'HL|2||RB'HL|3||I'NCD|1'NCA||R1'SE|8|0001'..";
    let untouched = ".".repeat(84);
    for line_ends in [LineEnds::Skipped, LineEnds::Strict] {
        let mut first = How::new();
        first.line_ends = line_ends;
        let reply = first.with_profile(Profile::StorageReply);
        assert_eq!(rewritten(&joined(&REPLY), reply), (Ok(ACCEPTED), wanted.to_string()));
        let refusals = [
            (joined(&REPLY), first, refused(Reason::LevelNotPermitted, 4, 41, 3)),
            (W1.to_string(), reply, refused(Reason::TooMany, 3, 32, 4)),
            (with(3, &["REF*TN*S17"]), reply, refused(Reason::RowNotInProfile, 3, 32, 0)),
            (joined(&REPLY).replace('~', "~\n"), reply, refused(Reason::ByteUnfit, 2, 12, 0)),
            (joined(&REPLY).replace("NR7", "N|7"), reply, refused(Reason::DataEqualsSeparator, 2, 12, 2)),
        ];
        for (report, how, answer) in refusals {
            assert_eq!(rewritten(&report, how), (answer, untouched.clone()));
        }
    }
}

#[test]
fn a_reply_written_again_reads_alike() {
    let report = joined(&REPLY);
    let (mut tables, mut output, mut back) = (Tables::for_input(report.as_bytes()), [0; 82], [0; 82]);
    assert_eq!(tables.rewrite(report.as_bytes(), STANDARD, How::reply(), NEW, &mut output), Ok(ACCEPTED));
    assert_eq!(tables.levels(), LEVELS.map(level_record));
    assert_eq!(tables.read(&output, NEW, How::reply()), Ok(ACCEPTED));
    assert_eq!(tables.segments(), SEGMENTS.map(segment_record));
    assert_eq!(tables.rewrite(&output, NEW, How::reply(), STANDARD, &mut back), Ok(ACCEPTED));
    assert_eq!(back, report.as_bytes());
}

#[test]
fn a_refused_rewriting_leaves_all_records_of_a_reply() {
    let report = joined(&REPLY);
    let mut tables = Tables::for_input(report.as_bytes());
    let answer = tables.rewrite(report.as_bytes(), STANDARD, How::reply(), NEW, &mut [0; 81]);
    assert_eq!(answer, refused(Reason::OutputTooShort, 0, 0, 0));
    assert_eq!(tables.segments(), SEGMENTS.map(segment_record));
    assert_eq!(tables.levels(), LEVELS.map(level_record));
}

#[test]
fn the_choices_have_their_flags() {
    assert_eq!((How::reply().flags(), STRICTLY.flags()), (2, 3));
    assert_eq!((raw::STRICT, raw::REPLY), (1, 2));
    assert_eq!((How::new().profile, Profile::default()), (Profile::Nonconformance, Profile::Nonconformance));
    assert_eq!(How::reply().with_profile(Profile::Nonconformance), How::new());
    assert_eq!(How::reply().line_ends, LineEnds::Skipped);
    let mut how = How::strict();
    how.profile = Profile::StorageReply;
    assert_eq!(how, STRICTLY);
    assert_ne!(How::reply(), How::new());
}

#[test]
fn bits_without_a_name_do_not_matter() {
    let (report, lines) = (joined(&REPLY), joined(&REPLY).replace('~', "~\n"));
    for unnamed in [0, 4, 1 << 8, 1 << 32, 1 << 63, !3] {
        let (mut segments, mut levels, mut output) = ([0; 32], [0; 12], [0; 82]);
        let mut read = |report: &str, how| {
            raw::read(report.as_bytes(), STANDARD, how | unnamed, &mut segments, &mut levels)
        };
        assert_eq!(read(&report, raw::REPLY), [0, 8, 3, 82], "{unnamed}");
        assert_eq!(read(&report, raw::REPLY | raw::STRICT), [0, 8, 3, 82], "{unnamed}");
        assert_eq!(read(&lines, raw::REPLY), [0, 8, 3, 89], "{unnamed}");
        assert_eq!(read(&lines, raw::REPLY | raw::STRICT), [5, 2, 12, 0], "{unnamed}");
        assert_eq!(read(&report, 0), [14, 4, 41, 3], "{unnamed}");
        assert_eq!(read(&report, raw::STRICT), [14, 4, 41, 3], "{unnamed}");
        let mut rewrite = |how| {
            let (input, how) = (report.as_bytes(), how | unnamed);
            raw::rewrite(input, STANDARD, how, NEW, &mut segments, &mut levels, &mut output)
        };
        assert_eq!((rewrite(raw::REPLY), rewrite(0)), ([0, 8, 3, 82], [14, 4, 41, 3]), "{unnamed}");
        assert_eq!(rewrite(raw::REPLY | raw::STRICT), [0, 8, 3, 82], "{unnamed}");
    }
}
