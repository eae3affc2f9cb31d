//! The level that each segment belongs to (document 02, Item 5): that of the latest HL up to it, whichever
//! parent that has; 0 in the heading and for SE.

use super::case::{Case, Told};
use super::lines::told as by_both;
use super::rewriting::{rewriting, told};
use super::text::{accepted, after_bnr, joined, refused, start_of};
use crate::{Separators, LEVEL_NUMBERS, SEGMENT_NUMBERS};

/// What stands between BNR and SE: each segment with the level it belongs to, told by hand.
pub type Body = [(&'static str, u64)];

/// Levels down to the fourth depth, then back to a shallow one, to one between and to a new root.
pub const DEEP: &Body = &[
    ("REF*A", 0),
    ("HL*1**RP*1", 1),
    ("REF*B", 1),
    ("HL*2*1*I*1", 2),
    ("NCD*1", 2),
    ("HL*3*2*F*1", 3),
    ("NCD*1", 3),
    ("NCA**R1", 3),
    ("HL*4*3*PC*0", 4),
    ("HL*5*1*I", 5),
    ("NCD*1", 5),
    ("HL*6*2*SN", 6),
    ("REF*C", 6),
    ("HL*7**RP", 7),
    ("PID*A", 7),
];

/// How many segments DEEP has, with ST, BNR and SE, and which of them are HLs.
const SEGMENTS: usize = DEEP.len() + 3;
const HLS: [u64; 7] = [4, 6, 8, 11, 12, 14, 16];

/// One level and SE behind it; a heading; a second root; names that tell nothing of the order; bytes of a BIN
/// and values that look like an HL or an SE; all loops of a level; levels alone, more than nine.
pub const BODIES: [&Body; 9] = [
    &[("HL*1**RP", 1)],
    &[("REF*A", 0), ("MEA*A", 0), ("PWK*A", 0), ("N1*SU*A", 0), ("PER*A", 0), ("HL*1**I", 1), ("NCD*1", 1)],
    &[("HL*1**RP", 1), ("HL*2**I", 2), ("REF*A", 2), ("HL*3**RP", 3), ("REF*A", 3)],
    &[("HL*9**I", 1), ("NCD*1", 1), ("HL*3*9*F", 2), ("NCD*1", 2), ("HL*1*9*PC", 3), ("NCD*1", 3)],
    &[
        ("HL*1**I", 1),
        ("NCD*1", 1),
        ("EFI*1", 1),
        ("BIN*9*~HL*2**I~", 1),
        ("HL*2*1*F", 2),
        ("NCD*1", 2),
        ("EFI*1", 2),
        ("BIN*11*~SE*9*0001~", 2),
        ("HL*3*2*SN", 3),
    ],
    &[("REF*HL*1", 0), ("HL*HL**I", 1), ("REF*HL*HL", 1), ("HL*SE*HL*F", 2), ("REF*SE", 2)],
    &[
        ("HL*1**I", 1),
        ("LIN**BP*A", 1),
        ("LM*A", 1),
        ("LQ*A", 1),
        ("FA1*A", 1),
        ("FA2*A", 1),
        ("SPS*A", 1),
        ("STA*A", 1),
        ("NCD*1", 1),
        ("N1*SU*A", 1),
        ("NCA**R1", 1),
        ("PWK*A", 1),
        ("REF*A", 1),
        ("N1*SU*A", 1),
        ("LM*A", 1),
        ("LQ*A", 1),
        ("HL*2*1*PC", 2),
        ("LM*A", 2),
        ("LQ*A", 2),
    ],
    &[
        ("HL*1**RP", 1),
        ("HL*2*1*I", 2),
        ("HL*3*2*F", 3),
        ("HL*4*3*SN", 4),
        ("HL*5*1*I", 5),
        ("HL*6*5*F", 6),
        ("HL*7*6*PC", 7),
        ("HL*8**RP", 8),
        ("HL*9*8*I", 9),
        ("HL*10*9*SN", 10),
        ("NCD*1", 10),
        ("HL*11*2*F", 11),
        ("REF*A", 11),
        ("HL*12**I", 12),
    ],
    DEEP,
];

/// The cases of the group.
pub fn cases() -> Vec<Told> {
    [whole(), refusals(), segment_rooms(), level_rooms(), in_lines(), rewritings()].concat()
}

/// The segments of a body.
pub fn segments(body: &Body) -> Vec<&'static str> {
    body.iter().map(|(segment, _)| *segment).collect()
}

/// Every body as a report.
fn whole() -> Vec<Told> {
    let levels = |body: &Body| body.iter().map(|(_, level)| *level).max().unwrap_or(0);
    BODIES.map(|body| accepted(after_bnr(&segments(body)), body.len() as u64 + 3, levels(body))).into()
}

/// The report of DEEP.
fn deep() -> String {
    after_bnr(&segments(DEEP))
}

/// The same with one segment put in another's place; segments are counted from 1.
pub fn deep_with(number: usize, segment: &str) -> String {
    let whole = deep();
    let mut segments: Vec<&str> = whole.split_terminator('~').collect();
    segments[number - 1] = segment;
    joined(&segments)
}

/// An unknown tag in every place; then each rule of levels and of closing broken: the records before it have
/// their levels.
fn refusals() -> Vec<Told> {
    let mut cases: Vec<Told> =
        (3..=SEGMENTS).map(|number| refused(deep_with(number, "XX*1"), 4, number as u64, 0)).collect();
    for (segment, number, element) in
        [("HL*4*2*SN", 12, 1), ("HL*6*8*SN", 13, 2), ("HL*6*4*SN", 14, 2), ("HL*6*2*SN*1", 15, 4)]
    {
        cases.push(refused(deep_with(14, segment), number, 14, element));
    }
    cases.push(refused(deep_with(SEGMENTS, "SE*17*0001"), 16, 18, 1));
    cases.push(refused(deep_with(SEGMENTS, "SE*18*0002"), 16, 18, 2));
    // Without its PC the F that is marked 1 has no child.
    cases.push(refused(deep_with(11, "NCA**R2"), 15, 18, 0));
    cases
}

/// The report of DEEP read with so many numbers in the tables, and refused for room at this segment.
fn no_room(rooms: (usize, usize), segment: u64) -> Told {
    let text = deep();
    let answer = Some([17, segment, start_of(text.as_bytes(), b'~', segment), 0]);
    Told { case: Case::read(text.into(), Separators::STANDARD, rooms), answer }
}

/// Room for all segments but the last, for those that three numbers each would hold, and for those up to the
/// first HL, with the HL and with one behind it, each with every number over.
fn segment_rooms() -> Vec<Told> {
    let levels = LEVEL_NUMBERS * HLS.len();
    let mut cases = vec![
        no_room((SEGMENT_NUMBERS * SEGMENTS - 1, levels), 18),
        no_room((3 * SEGMENTS, levels), 14),
        Told {
            case: Case::read(deep().into(), Separators::STANDARD, (SEGMENT_NUMBERS * SEGMENTS, levels)),
            answer: Some([0, 18, 7, deep().len() as u64]),
        },
    ];
    for whole in 3..=5 {
        for over in 0..SEGMENT_NUMBERS {
            cases.push(no_room((SEGMENT_NUMBERS * whole + over, levels), whole as u64 + 1));
        }
    }
    cases
}

/// Room for every number of levels but all: refused at the next HL.
fn level_rooms() -> Vec<Told> {
    let short = |(whole, segment): (usize, u64)| {
        no_room((SEGMENT_NUMBERS * SEGMENTS, LEVEL_NUMBERS * (whole + 1) - 1), segment)
    };
    HLS.into_iter().enumerate().map(short).collect()
}

/// Line ends between the segments change no level.
fn in_lines() -> Vec<Told> {
    let text = deep().replace('~', "~\r\n");
    by_both(&text, [[0, 18, 7, text.len() as u64 - 2], [5, 2, 12, 0]]).into()
}

/// A rewriting leaves the same records, where it is refused for the output or a data byte too.
fn rewritings() -> Vec<Told> {
    let new = Separators::new(b'|', b'^', b'\'');
    let (text, collides) = (deep(), deep_with(15, "REF*A|B"));
    let rewritten = |text: &str, more: isize, answer: [u64; 4]| {
        told(rewriting(text.as_bytes(), Separators::STANDARD, new, more), answer)
    };
    vec![
        rewritten(&text, 0, [0, 18, 7, text.len() as u64]),
        rewritten(&text, -1, [19, 0, 0, 0]),
        rewritten(&collides, 0, [18, 15, start_of(text.as_bytes(), b'~', 15), 1]),
        rewritten(&deep_with(16, "HL*5**RP"), 0, [12, 16, start_of(text.as_bytes(), b'~', 16), 1]),
    ]
}
