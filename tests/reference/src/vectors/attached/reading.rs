//! Readings: whole BINs, every way in which one is broken or not ended, and the order of the answers.

use super::{around, ending, BEFORE, STARTS};
use crate::vectors::case::{Case, Told};
use crate::vectors::text::{accepted, in_heading, reading, written_with};
use crate::{Separators, SEGMENT_NUMBERS};

pub fn cases() -> Vec<Told> {
    [
        whole(),
        several(),
        cut_as_before(),
        broken_lengths(),
        broken_ends(),
        not_ended(),
        places(),
        rooms(),
        other_sets(),
        cut_everywhere(),
        long(),
    ]
    .concat()
}

fn told(input: Vec<u8>, answer: [u64; 4]) -> Told {
    Told { case: reading(&input), answer: Some(answer) }
}

/// A refusal at the BIN, which is the sixth segment.
fn refused(input: Vec<u8>, number: u64, element: u64) -> Told {
    told(input, [number, 6, STARTS[5], element])
}

/// The same refusal of the BIN, whether the input ends with it or goes on.
fn refused_both(bin: &[u8], number: u64, element: u64) -> [Told; 2] {
    let longer = [bin, b"1*A~"].concat();
    [refused(ending(bin), number, element), refused(around(&longer), number, element)]
}

/// Exactly as many bytes as the count says, of any kind, and the terminator.
fn whole() -> Vec<Told> {
    let every_byte: Vec<u8> = (0..=255).collect();
    let every_byte = [b"BIN*256*", &every_byte[..], b"~"].concat();
    let bins: [&[u8]; 23] = [
        b"BIN*3*ABC~",
        b"BIN*1*~~",
        b"BIN*1**~",
        b"BIN*1*:~",
        b"BIN*1* ~",
        b"BIN*1*\0~",
        b"BIN*1*\x7F~",
        b"BIN*1*\xFF~",
        b"BIN*2*\r\n~",
        b"BIN*2*A:~",
        b"BIN*3*A:*~",
        b"BIN*4*::**~",
        b"BIN*6*~~~~~~~",
        b"BIN*5*A~B*C~",
        b"BIN*11*~SE*7*0001~~",
        b"BIN*10*BIN*3*ABC~~",
        b"BIN*5*BIN*9~",
        b"BIN*01*A~",
        b"BIN*03*A~B~",
        b"BIN*00000000000001*~~",
        b"BIN*000000000000001*~~",
        b"BIN*000000000000003*A~B~",
        &every_byte,
    ];
    bins.iter().map(|bin| accepted(around(bin), 7, 1)).collect()
}

/// Segments behind a BIN are counted and found as always; what comes after an SE is not looked at.
fn several() -> Vec<Told> {
    let two = b"BIN*5*A~B*C~EFI*2~BIN*02*:~~N1*SU*A~NCA**R1~SE*11*0001~";
    let unknown = ending(b"BIN*5*A~B*C~XX*1~");
    let spoilt = ending(b"BIN*5*A~B*C~N1*SU*\0~");
    let again = ending(b"BIN*5*A~B*C~BIN*1*A~");
    let behind = [around(b"BIN*1*~~"), b"BIN*A".to_vec()].concat();
    vec![
        accepted(ending(two), 11, 1),
        told(unknown, [4, 7, 50, 0]),
        told(spoilt, [5, 7, 50, 2]),
        told(again, [7, 7, 50, 0]),
        told(ending(b"BIN*5*A~B*C~BIN*2*AB*"), [10, 7, 50, 2]),
        told(ending(b"BIN*5*A~B*C~BIN*2*A"), [3, 7, 50, 0]),
        told(ending(b"BIN*5*A~B*C~SE*8*0001~"), [16, 7, 50, 1]),
        told(behind, [0, 7, 1, 56]),
    ]
}

/// Without the element separator behind the three letters nothing is counted.
fn cut_as_before() -> Vec<Told> {
    let mut cases = vec![
        refused(around(b"BIN~"), 6, 0),
        refused(ending(b"BIN~"), 6, 0),
        refused(around(b"BIN:~"), 4, 0),
        refused(around(b"BIN:*1*A~"), 4, 0),
        refused(around(b"BIN:1*A~"), 4, 0),
        refused(around(b"BIN:*1*\0~"), 5, 2),
        refused(around(b"BIN\x01*1*A~"), 5, 0),
        refused(around(b"BINX*1*A~"), 4, 0),
        refused(around(b"BIN *1*A~"), 4, 0),
        refused(around(b" BIN*1*A~"), 4, 0),
        refused(around(b"*BIN*1*A~"), 4, 0),
        refused(around(b"BI*1*A~"), 4, 0),
        refused(around(b"bin*1*A~"), 4, 0),
        accepted(in_heading(&["REF*BIN*3", "REF*A*BIN*0*B"]), 6, 1),
    ];
    for bin in ["B", "BI", "BIN", "BIN:", "BIN:*1*A"] {
        cases.push(refused(ending(bin.as_bytes()), 3, 0));
    }
    cases
}

/// 10 with element 1: the last byte of each breaks the length or is not its separator.
fn broken_lengths() -> Vec<Told> {
    let no_digit = ["BIN*A", "BIN**", "BIN*~", "BIN*:", "BIN* ", "BIN*-", "BIN*+", "BIN*.", "BIN*/", "BIN*;"];
    let zero = ["BIN*0*", "BIN*00*", "BIN*0~", "BIN*00000000000000*", "BIN*000000000000000"];
    let no_separator = ["BIN*3~", "BIN*3:", "BIN*3A", "BIN*3 ", "BIN*3.", "BIN*3/", "BIN*12~", "BIN*0A"];
    let digits = [
        "BIN*0000000000000001", "BIN*1111111111111111", "BIN*1000000000000000", "BIN*999999999999999~",
        "BIN*999999999999999A", "BIN*000000000000001:",
    ];
    let mut cases: Vec<Told> = [&no_digit[..], &zero, &no_separator, &digits]
        .concat()
        .iter()
        .flat_map(|bin| refused_both(bin.as_bytes(), 10, 1))
        .collect();
    for bin in [&b"BIN*\0"[..], b"BIN*\xFF", b"BIN*\xB3", b"BIN*3\0", b"BIN*3\n", b"BIN*3\xFF"] {
        cases.extend(refused_both(bin, 10, 1));
    }
    // Far more digits than any number has room for, and one that comes to 1 where it runs over.
    let long = format!("BIN*{}*A~", "9".repeat(40));
    cases.push(refused(around(long.as_bytes()), 10, 1));
    cases.push(refused(around(b"BIN*18446744073709551617*A~"), 10, 1));
    cases
}

/// 10 with element 2: the last byte of each stands where the terminator is due.
fn broken_ends() -> Vec<Told> {
    let bins: [&[u8]; 14] = [
        b"BIN*3*ABCD",
        b"BIN*3*ABC*",
        b"BIN*3*ABC:",
        b"BIN*3*ABC ",
        b"BIN*3*ABC\n",
        b"BIN*3*ABC\0",
        b"BIN*3*ABC\xFE",
        b"BIN*2*ABC",
        b"BIN*4*ABC~S",
        b"BIN*1*AB",
        b"BIN*1*~*",
        b"BIN*3*~~~A",
        b"BIN*000000000000001*AA",
        b"BIN*12*ABC~SE*7*0001",
    ];
    bins.iter().flat_map(|bin| refused_both(bin, 10, 2)).collect()
}

/// 3: the bytes end inside a BIN that is not yet broken. What is there of BIN02 is not looked at.
fn not_ended() -> Vec<Told> {
    let bins: [&[u8]; 20] = [
        b"BIN*",
        b"BIN*0",
        b"BIN*00000000000000",
        b"BIN*3",
        b"BIN*000000000000001",
        b"BIN*999999999999999",
        b"BIN*3*",
        b"BIN*1*",
        b"BIN*1*~",
        b"BIN*3*A",
        b"BIN*3*AB~",
        b"BIN*3*ABC",
        b"BIN*3*~~~",
        b"BIN*3*\0\xFF",
        b"BIN*4*ABC~",
        b"BIN*14*ABC~SE*7*0001~",
        b"BIN*15*ABC~SE*7*0001~",
        b"BIN*1048576*ABC~SE*7*0001~",
        b"BIN*4294967299*ABC~SE*7*0001~",
        b"BIN*999999999999999*ABC~SE*7*0001~",
    ];
    bins.iter().map(|bin| refused(ending(bin), 3, 0)).collect()
}

/// A whole BIN out of place is 7; a broken one is 10 wherever it stands.
fn places() -> Vec<Told> {
    let mut cases = Vec::new();
    let before: [(&str, u64, u64); 6] = [
        ("", 1, 0),
        ("ST*842*0001~", 2, 12),
        ("ST*842*0001~BNR*1~", 3, 18),
        ("ST*842*0001~BNR*1~HL*1**I~", 4, 26),
        ("ST*842*0001~BNR*1~HL*1**I~NCD*1~", 5, 32),
        ("ST*842*0001~BNR*1~HL*1**I~NCD*1~EFI*1~BIN*1*~~", 7, 46),
    ];
    let bins: [(&[u8], u64, u64); 8] = [
        (b"BIN*3*A~C~", 7, 0),
        (b"BIN*3*\0\xFF:~", 7, 0),
        (b"BIN*A~", 10, 1),
        (b"BIN*3*ABCD~", 10, 2),
        (b"BIN*\0", 10, 1),
        (b"BIN*3*AB", 3, 0),
        (b"BIN~", 6, 0),
        (b"BIN:~", 4, 0),
    ];
    for (text, segment, byte) in before {
        for (bin, number, element) in bins {
            let input = [text.as_bytes(), bin].concat();
            cases.push(told(input, [number, segment, byte, element]));
        }
    }
    cases
}

/// Room comes after everything else.
fn rooms() -> Vec<Told> {
    let with_room = |input: Vec<u8>, segments: usize, answer: [u64; 4]| {
        let case = Case::read(input, Separators::STANDARD, (segments, 4));
        Told { case, answer: Some(answer) }
    };
    let short = SEGMENT_NUMBERS * 6 - 1;
    vec![
        with_room(around(b"BIN*3*A~C~"), short, [17, 6, 38, 0]),
        with_room(around(b"BIN*3*A~C~"), SEGMENT_NUMBERS * 6, [17, 7, 48, 0]),
        with_room(around(b"BIN*3*A~C~"), SEGMENT_NUMBERS * 7, [0, 7, 1, 58]),
        with_room(around(b"BIN*3*A~CD~"), short, [10, 6, 38, 2]),
        with_room(around(b"BIN*0*A~"), short, [10, 6, 38, 1]),
        with_room(ending(b"BIN*3*A~C"), short, [3, 6, 38, 0]),
        with_room(around(b"BIN~"), short, [6, 6, 38, 0]),
    ]
}

/// The report in other separators; the BIN is as it is.
fn other_sets() -> Vec<Told> {
    let read = |set: [u8; 3], bin: &[u8], answer: Option<[u64; 4]>| {
        let separators = Separators::new(set[0], set[1], set[2]);
        let start = written_with(BEFORE, separators);
        let input = [&start[..], bin, &written_with("SE*7*0001~", separators)].concat();
        let answer = answer.unwrap_or([0, 7, 1, input.len() as u64]);
        Told { case: Case::read(input, separators, (SEGMENT_NUMBERS * 7 + 2, 5)), answer: Some(answer) }
    };
    vec![
        read([1, 2, 3], b"BIN\x016\x01*:~\x01\x02\x03\x03", None),
        read([1, 2, 3], b"BIN\x013\x01ABC~", Some([10, 6, 38, 2])),
        read([1, 2, 3], b"BIN\x013*ABC\x03", Some([10, 6, 38, 1])),
        read([1, 2, 3], b"BIN*3*ABC\x03", Some([4, 6, 38, 0])),
        read([b'|', b'^', b'\''], b"BIN|3|'|^'", None),
        read([b'|', b'^', b'\''], b"BIN*3*ABC'", Some([4, 6, 38, 0])),
        read([b'~', b':', b'*'], b"BIN~3~*~:*", None),
        read([b'~', b':', b'*'], b"BIN~3*", Some([10, 6, 38, 1])),
        read([b'~', b':', b'*'], b"BIN*", Some([6, 6, 38, 0])),
        read([b'*', b'~', b'\n'], b"BIN*5*\n~*~\n\n", None),
        read([b'*', b'~', b'\n'], b"BIN~\n", Some([4, 6, 38, 0])),
    ]
}

/// A whole BIN and two broken ones cut at every byte: 3 until the byte that breaks.
fn cut_everywhere() -> Vec<Told> {
    let whole = around(b"BIN*011*~SE*7*0001~~");
    let starts = [&STARTS[..], &[58]].concat();
    let cut = |length: usize| {
        let before = starts.iter().filter(|start| **start <= length as u64).count();
        told(whole[..length].to_vec(), [3, before as u64, starts[before - 1], 0])
    };
    let mut cases: Vec<Told> = (0..whole.len()).map(cut).collect();
    cases.push(accepted(&whole, 7, 1));
    for (bin, breaks, element) in [(&b"BIN*3*A~CD~"[..], 9, 2), (b"BIN*12A*~", 6, 1)] {
        for length in 0..=bin.len() {
            let input = ending(&bin[..length]);
            cases.push(if length > breaks { refused(input, 10, element) } else { refused(input, 3, 0) });
        }
    }
    cases
}

/// Inputs of the greatest length, filled up with `~`, of which the BIN takes nearly all: its terminator is
/// the last byte but one, the last, and past the end.
fn long() -> Vec<Told> {
    let filled = |count: u64, answer: [u64; 4]| {
        let input = ending(format!("BIN*{count}*").as_bytes());
        let case = Case::long(input, Separators::STANDARD, (SEGMENT_NUMBERS * 7 + 2, 5), 1_048_576);
        Told { case, answer: Some(answer) }
    };
    vec![
        filled(1_048_524, [4, 7, 1_048_575, 0]),
        filled(1_048_525, [3, 7, 1_048_576, 0]),
        filled(1_048_526, [3, 6, 38, 0]),
        filled(4_294_967_295, [3, 6, 38, 0]),
    ]
}
