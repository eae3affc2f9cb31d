//! Replies, the second profile (document 02, Item 9): reading and rewriting.

mod levels;
mod rewriting;
mod rows;
mod whole;

use crate::vectors::case::{How, Told};
use crate::vectors::text::{accepted, joined, refused};

/// A reply with each of its codes.
pub const SMALL: [&str; 8] = [
    "ST*842*0001", "BNR*11*SQ7*20240301", "HL*1**RP", "HL*2**I", "NCD**5", "NCA**UC", "HL*3**RB", "SE*8*0001",
];

/// Where its segments start, and where the last ends.
const STARTS: [u64; 9] = [0, 12, 32, 41, 49, 56, 64, 73, 83];

/// A whole reply as source document 002 describes its segments, without the elements that it does not use and
/// without the LM and LQ at the end, which the profile leaves out; each with its row in the list of 79.
pub const WHOLE: [(&str, u64); 30] = [
    ("ST*842*0417", 1),
    ("BNR*11*SQ0417*20050425*1430**DG", 2),
    ("N1*41**M4*AQ5**FR", 12),
    ("PER*IC*DESK*TE*5550100", 17),
    ("N1*40**M4*SMS**TO", 12),
    ("HL*1**RP", 18),
    ("DTM*007*20050420", 23),
    ("REF*SQ*0417", 24),
    ("HL*2**I", 18),
    ("LIN**FS*5305001234567*ZB*1AB23", 19),
    ("DTM*405*20050301", 23),
    ("REF*LT*77**W8:B", 24),
    ("CS*SPE4A0**2*C7*0001", 25),
    ("QTY*38*12*EA", 26),
    ("LM*DF", 30),
    ("LQ*0*A", 31),
    ("LQ*83*K", 31),
    ("NCD**5*1", 46),
    ("NTE*RPT*RUST ON THREAD", 47),
    ("DTM*009*20050410", 48),
    ("REF*T4*9**T0:X", 49),
    ("AMT*T*125.5", 51),
    ("N1*MF**33*1AB23", 56),
    ("NCA**UC**12*EA", 64),
    ("N1*ST*DEPOT", 71),
    ("HL*3**RB", 18),
    ("NCD**5", 46),
    ("NTE*AES*SORTED", 47),
    ("NCA**UC", 64),
    ("SE*30*0417", 79),
];

/// The segments of the whole reply.
pub fn whole_segments() -> Vec<&'static str> {
    WHOLE.iter().map(|(segment, _)| *segment).collect()
}

/// The bytes of the small reply with one segment put in another's place; segments are counted from 1.
fn small_with(number: usize, segment: &str) -> String {
    let mut segments = SMALL;
    segments[number - 1] = segment;
    joined(&segments)
}

/// A reply that is accepted with so many segments and levels, line ends skipped and strictly: it has none.
fn taken<T: AsRef<[u8]>>(input: T, segments: u64, levels: u64) -> [Told; 2] {
    let told = accepted(input, segments, levels);
    [told.clone().by(How::REPLY), told.by(How::STRICT_REPLY)]
}

/// A reply that is refused.
fn barred<T: AsRef<[u8]>>(input: T, number: u64, segment: u64, element: u64) -> Told {
    refused(input, number, segment, element).by(How::REPLY)
}

/// The cases of the group.
pub fn cases() -> Vec<Told> {
    [whole::cases(), rows::cases(), levels::cases(), rewriting::cases()].concat()
}
