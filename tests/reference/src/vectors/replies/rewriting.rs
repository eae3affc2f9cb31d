//! Rewritings of replies: read strictly and by the profile.

use super::{small_with, whole_segments, SMALL};
use crate::vectors::case::{Case, Told};
use crate::vectors::rewriting::{rewriting, told};
use crate::vectors::text::{in_fault, in_heading, joined, start_of, written_with};
use crate::vectors::OUTPUT_BYTES;
use crate::{Profile, Separators, LEVEL_NUMBERS, SEGMENT_NUMBERS};

const STANDARD: Separators = Separators::STANDARD;
const NEW: Separators = Separators::new(b'|', b'^', b'\'');

pub fn cases() -> Vec<Told> {
    [success(), refused(), rooms()].concat()
}

/// The same rewriting by the profile of replies.
fn by_reply(mut case: Case) -> Case {
    if let Case::Rewrite { profile, output, .. } = &mut case {
        *profile = Profile::Reply;
        *output = (*output).min(OUTPUT_BYTES);
    }
    case
}

/// A reply rewritten, with so many bytes more or less in the output than in the input.
fn reply(text: &str, new: Separators, more: isize, answer: [u64; 4]) -> Told {
    told(by_reply(rewriting(text.as_bytes(), STANDARD, new, more)), answer)
}

/// The small reply from and to several sets; with bytes behind SE; a longer one with components.
fn success() -> Vec<Told> {
    let text = joined(&SMALL);
    let answer = [0, 8, 3, 83];
    let mut cases = Vec::new();
    for new in [STANDARD, NEW, Separators::new(1, 2, 3), Separators::new(b'~', b'*', b':')] {
        cases.push(reply(&text, new, 0, answer));
        cases.push(told(by_reply(rewriting(&written_with(&text, new), new, STANDARD, 3)), answer));
    }
    cases.push(reply(&(text.clone() + "|^'\r\n"), NEW, 0, answer));
    let level = in_fault(&["REF*T4*9**T0:X", "NCA**UC**12*EA:1:2", "N1*ST*DEPOT"]);
    cases.push(reply(&level, NEW, 0, [0, 8, 1, level.len() as u64]));
    cases
}

/// 1, the reading's refusals, 18 and 19; the first profile has other refusals.
fn refused() -> Vec<Told> {
    let text = joined(&SMALL);
    let unfit = Separators::new(b'*', b'*', b'~');
    let foreign = in_heading(&["REF*A|B"]);
    let at = |text: &str, segment: u64| start_of(text.as_bytes(), b'~', segment);
    let collides = small_with(2, "BNR*11*S|7*20240301");
    let whole = joined(&whole_segments());
    let first = |text: &str, answer: [u64; 4]| told(rewriting(text.as_bytes(), STANDARD, NEW, 0), answer);
    vec![
        reply(&text, unfit, 0, [1, 0, 0, 1]),
        told(by_reply(rewriting(text.as_bytes(), unfit, NEW, 0)), [1, 0, 0, 0]),
        reply(&foreign, NEW, 0, [24, 3, 18, 0]),
        reply(&foreign, NEW, -40, [24, 3, 18, 0]),
        first(&foreign, [18, 3, 18, 1]),
        reply(&small_with(3, "HL*1**RP*1"), NEW, 0, [9, 3, 32, 4]),
        reply(&small_with(4, "HL*2*1*I"), NEW, 0, [9, 4, 41, 2]),
        reply(&small_with(4, "HL*2**F"), NEW, 0, [14, 4, 41, 3]),
        reply(&small_with(7, "HL*2**RB"), NEW, 0, [12, 7, 64, 1]),
        first(&text, [14, 7, 64, 3]),
        first(&small_with(7, "HL*3**I"), [0, 8, 3, 82]),
        reply(&text.replace('~', "~\r\n"), NEW, 0, [5, 2, 12, 0]),
        reply(&collides, NEW, 0, [18, 2, at(&collides, 2), 2]),
        reply(&collides, NEW, -80, [18, 2, at(&collides, 2), 2]),
        reply(&text, NEW, -1, [19, 0, 0, 0]),
        reply(&text, NEW, -83, [19, 0, 0, 0]),
        // Longer than an output may be.
        reply(&whole, NEW, 0, [19, 0, 0, 0]),
        reply(&whole.replace("RUST ON", "RUST|ON"), NEW, 0, [18, 19, at(&whole, 19), 2]),
    ]
}

/// The tables are left as reading alone leaves them.
fn rooms() -> Vec<Told> {
    let with = |rooms: (usize, usize), answer: [u64; 4]| {
        let mut case = by_reply(rewriting(joined(&SMALL).as_bytes(), STANDARD, NEW, 0));
        if let Case::Rewrite { rooms: own, .. } = &mut case {
            *own = rooms;
        }
        told(case, answer)
    };
    vec![
        with((SEGMENT_NUMBERS * 8, LEVEL_NUMBERS * 3), [0, 8, 3, 83]),
        with((SEGMENT_NUMBERS * 8 - 1, LEVEL_NUMBERS * 3), [17, 8, 73, 0]),
        with((SEGMENT_NUMBERS * 8, LEVEL_NUMBERS * 3 - 1), [17, 7, 64, 0]),
        with((0, 0), [17, 1, 0, 0]),
    ]
}
