//! What is compared: generated reports and replies, every table size, every separator.

use crate::lookups;
use crate::numbers;
use crate::outcome::Sizes;
use crate::rewriting;
use crate::tally::Tally;
use crate::walks;
use reference::generator::{report, Random};
use reference::{Separators, LEVEL_NUMBERS, SEGMENT_NUMBERS};

const W1: &[u8] = b"ST*842*0001~BNR*11*NR7*20240301~HL*1**RP*1~HL*2*1*I*0~NCD*1~NCA**R1~SE*7*0001~";
/// The same with line ends of every kind.
const W1_IN_LINES: &[u8] =
    b"ST*842*0001~\r\nBNR*11*NR7*20240301~\nHL*1**RP*1~\rHL*2*1*I*0~NCD*1~\r\nNCA**R1~\nSE*7*0001~\r\n";

/// A reply with each of its codes, line ends among its segments.
const REPLY: &[u8] =
    b"ST*842*0001~BNR*11*SQ7*20240301~\r\nHL*1**RP~HL*2**I~\nNCD**5~NCA**UC~\rHL*3**RB~SE*8*0001~";

/// Room for a segment and a level more than W1 has.
const W1_SIZES: Sizes = Sizes { segments: SEGMENT_NUMBERS * 8, levels: LEVEL_NUMBERS * 3, output: 0 };
/// The same for the reply.
const REPLY_SIZES: Sizes = Sizes { segments: SEGMENT_NUMBERS * 9, levels: LEVEL_NUMBERS * 4, output: 0 };

/// One seed in so many has its report read with every table size.
const EVERY_ROOM_ONE_IN: u64 = 512;
/// The longest report, in bytes, that is read with every table size.
const EVERY_ROOM_LONGEST: usize = 600;

/// The case of one seed: its readings, its rewritings, lookups in it and in a BIN, number checks, walks, and for some every
/// table size.
pub fn generated(tally: &mut Tally, seed: u64) {
    let case = report(seed);
    let name = format!("seed {seed}");
    let sizes = Sizes { segments: case.segment_numbers, levels: case.level_numbers, output: 0 };
    let unnamed = unnamed_bits(seed);
    tally.read(&name, &case.input, case.separators, unnamed, sizes);
    rewriting::compare(tally, &name, &case, unnamed);
    lookups::generated(tally, &name, &case);
    numbers::generated(tally, &name, &case);
    walks::generated(tally, &name, seed);
    if seed.is_multiple_of(EVERY_ROOM_ONE_IN) && case.input.len() <= EVERY_ROOM_LONGEST {
        every_room(tally, &name, &case.input, case.separators);
    }
}

/// Bits of `how` that are not looked at: none for every other seed, else any but the two lowest.
fn unnamed_bits(seed: u64) -> u64 {
    if seed.is_multiple_of(2) {
        0
    } else {
        Random::new(seed ^ 0x40).number() & !3
    }
}

/// A reading with every size of both tables, one at a time, from none to more than enough.
fn every_room(tally: &mut Tally, name: &str, input: &[u8], set: Separators) {
    let most = input.len() / 5 + 1;
    let enough = Sizes { segments: SEGMENT_NUMBERS * most, levels: LEVEL_NUMBERS * most, output: 0 };
    for segments in 0..enough.segments + SEGMENT_NUMBERS {
        tally.read(name, input, set, 0, Sizes { segments, ..enough });
    }
    for levels in 0..enough.levels + LEVEL_NUMBERS {
        tally.read(name, input, set, 0, Sizes { levels, ..enough });
    }
}

/// W1, with line ends and without, and a reply, with every pair of table sizes.
pub fn rooms(tally: &mut Tally) {
    for sizes in every_pair(W1_SIZES) {
        tally.read("W1, rooms", W1, Separators::STANDARD, 0, sizes);
        tally.read("W1 in lines, rooms", W1_IN_LINES, Separators::STANDARD, 0, sizes);
    }
    for sizes in every_pair(REPLY_SIZES) {
        tally.read("reply, rooms", REPLY, Separators::STANDARD, 0, sizes);
    }
}

/// Every pair of table sizes up to these.
fn every_pair(most: Sizes) -> impl Iterator<Item = Sizes> {
    (0..=most.segments)
        .flat_map(move |segments| (0..=most.levels).map(move |levels| Sizes { segments, levels, output: 0 }))
}

/// W1 in other separators: every byte in each of the three places, as the set and in the input, and every fit pair of
/// control bytes and marks.
pub fn sets(tally: &mut Tally) {
    for byte in 0..=255 {
        for place in 0..3 {
            let mut bytes = [b'*', b':', b'~'];
            bytes[place] = byte;
            set(tally, Separators::new(bytes[0], bytes[1], bytes[2]));
        }
        for other in 0..=127 {
            set(tally, Separators::new(byte, other, b'~'));
            set(tally, Separators::new(b'|', byte, other));
            set(tally, Separators::new(other, b'^', byte));
        }
    }
}

/// W1 as it is, and translated with line ends and without, and a reply translated, read with that set.
fn set(tally: &mut Tally, set: Separators) {
    tally.read("W1, sets", W1, set, 0, W1_SIZES);
    tally.read("W1 translated, sets", &translated(W1, set), set, 0, W1_SIZES);
    tally.read("W1 in lines translated, sets", &translated(W1_IN_LINES, set), set, 0, W1_SIZES);
    tally.read("reply translated, sets", &translated(REPLY, set), set, 0, REPLY_SIZES);
}

/// A report in the standard separators, written with that set.
fn translated(report: &[u8], set: Separators) -> Vec<u8> {
    report
        .iter()
        .map(|byte| match byte {
            b'*' => set.element,
            b':' => set.component,
            b'~' => set.terminator,
            _ => *byte,
        })
        .collect()
}
