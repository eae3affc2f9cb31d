//! The level that each segment belongs to.

use stormhlaw::{raw, Accepted, How, Level, Reason, SegmentRecord, Separators, Tables};

/// Levels down to the fourth, and then an item under the first, with the level that each segment belongs to. No HL01 is
/// the number of its level.
const TREE: [(&str, u64); 13] = [
    ("ST*842*0001", 0),
    ("BNR*11*NR7*20240301", 0),
    ("DTM*002*20240301", 0),
    ("HL*30**RP*1", 1),
    ("DTM*002*20240302", 1),
    ("HL*20*30*I*1", 2),
    ("HL*10*20*F*1", 3),
    ("HL*5*10*PC*0", 4),
    ("NCD*1", 4),
    ("HL*40*30*I*0", 5),
    ("NCD*1", 5),
    ("NCA**R1", 5),
    ("SE*13*0001", 0),
];

const STANDARD: Separators = Separators::STANDARD;

/// The tree with that end behind each segment.
fn ended(end: &str) -> Vec<u8> {
    TREE.map(|(segment, _)| format!("{segment}~{end}")).concat().into_bytes()
}

/// The tables after a reading of the whole tree.
fn read(report: &[u8]) -> Tables {
    let mut tables = Tables::for_input(report);
    let Accepted { segments, levels, .. } = tables.read(report, STANDARD, How::new()).unwrap();
    assert_eq!((segments, levels), (13, 5));
    tables
}

/// The levels that the segments of the tables belong to.
fn numbers(tables: &Tables) -> Vec<u64> {
    tables.segments().iter().map(|segment| segment.level).collect()
}

#[test]
fn a_segment_belongs_to_the_latest_hl_and_not_to_its_parent() {
    for end in ["", "\r\n"] {
        let tables = read(&ended(end));
        assert_eq!(numbers(&tables), TREE.map(|(_, level)| level));
    }
    let parents: Vec<_> = read(&ended("")).levels().iter().map(|level| level.parent).collect();
    assert_eq!(parents, [0, 1, 2, 3, 1]);
}

#[test]
fn a_rewriting_leaves_the_same_levels() {
    let (report, new) = (ended(""), Separators { element: b'|', component: b'^', terminator: b'\'' });
    let mut tables = Tables::for_input(&report);
    tables.rewrite(&report, STANDARD, How::strict(), new, &mut vec![0; report.len()]).unwrap();
    assert_eq!(numbers(&tables), TREE.map(|(_, level)| level));
}

#[test]
fn the_record_of_a_level_names_its_hl() {
    let report = ended("");
    let tables = read(&report);
    let hl = |segment: &SegmentRecord| {
        segment.level(tables.levels()).and_then(|level| level.hl(tables.segments()))
    };
    let mut latest = None;
    for segment in tables.segments() {
        match segment.bytes(&report).unwrap() {
            bytes if bytes.starts_with(b"HL*") => latest = Some(segment),
            bytes if bytes.starts_with(b"SE*") => latest = None,
            _ => {}
        }
        assert_eq!(hl(segment), latest);
    }
}

#[test]
fn a_level_without_its_record_is_none() {
    let levels = [Level { segment: 4, parent: 0, depth: 1, code: 1 }, Level::default()];
    let of = |level| SegmentRecord { level, ..SegmentRecord::default() };
    assert_eq!(of(1).level(&levels), Some(&levels[0]));
    assert_eq!(of(2).level(&levels), Some(&levels[1]));
    for level in [0, 3, u64::MAX] {
        assert_eq!(of(level).level(&levels), None);
    }
}

#[test]
fn a_refusal_leaves_the_levels_of_what_stands_before() {
    let report = ended("");
    let whole = read(&report);
    let mut tables = Tables::for_input(&report);
    for length in 0..report.len() {
        let refusal = tables.read(&report[..length], STANDARD, How::new()).unwrap_err();
        let before = &whole.segments()[..refusal.segment - 1];
        assert_eq!(tables.segments(), before, "{refusal}");
        let hls = before.iter().filter(|segment| segment.row == 18).count();
        assert_eq!(tables.levels(), &whole.levels()[..hls], "{refusal}");
    }
}

#[test]
fn a_segment_takes_four_numbers() {
    let report = ended("");
    let answer = |room: usize| raw::read(&report, STANDARD, 0, &mut vec![0; room], &mut [0; 20]);
    let no_room = u64::from(Reason::NoRoom.number());
    for (room, refused) in [(3, 1), (4, 2), (7, 2), (8, 3), (3 * 13, 10), (4 * 13 - 1, 13)] {
        assert_eq!(answer(room)[..2], [no_room, refused], "room for {room} numbers");
    }
    assert_eq!(answer(4 * 13)[..3], [0, 13, 5]);
}
