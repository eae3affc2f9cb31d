//! Rewritings: BIN02 is copied and not looked at; 18 looks at everything around it.

use super::{around, ending, BEFORE};
use crate::vectors::case::{Case, Told};
use crate::vectors::text::{enough, written_with};
use crate::{Profile, Separators};

const STANDARD: Separators = Separators::STANDARD;
const NEW: Separators = Separators::new(b'|', b'^', b'\'');

/// A rewriting with so many bytes more or less in the output than in the input.
fn rewriting(input: Vec<u8>, sets: [Separators; 2], more: isize, answer: [u64; 4]) -> Told {
    let rooms = enough(&input, sets[0]);
    let output = input.len().saturating_add_signed(more);
    let profile = Profile::Report;
    let case = Case::Rewrite { input, separators: sets[0], profile, new: sets[1], rooms, output };
    Told { case, answer: Some(answer) }
}

pub fn cases() -> Vec<Told> {
    [copied(), there_and_back(), collisions(), short(), refused()].concat()
}

/// BIN02 holds old separators, new ones, both, and bytes that are no data.
fn copied() -> Vec<Told> {
    let bins: [&[u8]; 8] = [
        b"BIN*3*ABC~",
        b"BIN*3**:~~",
        b"BIN*3*|^'~",
        b"BIN*6**:~|^'~",
        b"BIN*012*'SE|7|0001'|~",
        b"BIN*11*~SE*7*0001~~",
        b"BIN*6*\0\x01\x02\x03\n\xFF~",
        b"BIN*1*~~",
    ];
    let sets = [
        STANDARD,
        NEW,
        Separators::new(1, 2, 3),
        Separators::new(b':', b'~', b'*'),
        Separators::new(b'~', b'*', b'\n'),
    ];
    let mut cases = Vec::new();
    for bin in bins {
        for set in sets {
            let input = around(bin);
            let answer = [0, 7, 1, input.len() as u64];
            let more = if set == NEW { 3 } else { 0 };
            cases.push(rewriting(input, [STANDARD, set], more, answer));
        }
    }
    let every_byte: Vec<u8> = (0..=255).collect();
    let input = around(&[b"BIN*256*", &every_byte[..], b"~"].concat());
    let answer = [0, 7, 1, input.len() as u64];
    cases.push(rewriting(input, [STANDARD, NEW], 0, answer));
    cases
}

/// A report in the new separators with the same BIN02, rewritten to the standard ones.
fn there_and_back() -> Vec<Told> {
    let bins: [&[u8]; 3] = [b"BIN|6|*:~|^''", b"BIN|1|''", b"BIN|0011|~SE*7*0001~'"];
    let back = |bin: &[u8]| {
        let input = [&written_with(BEFORE, NEW)[..], bin, b"SE|7|0001'"].concat();
        let answer = [0, 7, 1, input.len() as u64];
        rewriting(input, [NEW, STANDARD], 0, answer)
    };
    bins.map(back).into()
}

/// 18 in a segment before the BIN, behind it, and between two; what collides in BIN02 is none.
fn collisions() -> Vec<Told> {
    let sets = [STANDARD, NEW];
    let before = b"ST*842*0001~BNR*1~HL*1**I~NCD*1~REF*A*B|~EFI*1~BIN*3*|^'~SE*8*0001~";
    let in_efi = b"ST*842*0001~BNR*1~HL*1**I~NCD*1~EFI*1**'~BIN*3*|^'~SE*7*0001~";
    let behind = ending(b"BIN*8*~|~'*^:~~N1*SU*A'B~SE*8*0001~");
    let between = ending(b"BIN*3*~|~~EFI*^~BIN*3*~|~~N1*SU*A'B~SE*10*0001~");
    let behind_two = ending(b"BIN*3*~|~~EFI*1~BIN*3*~|~~NCA*1*R1*A^~SE*10*0001~");
    vec![
        rewriting(before.to_vec(), sets, 0, [18, 5, 32, 2]),
        rewriting(in_efi.to_vec(), sets, 0, [18, 5, 32, 3]),
        rewriting(behind.clone(), sets, 0, [18, 7, 53, 2]),
        rewriting(behind, sets, -60, [18, 7, 53, 2]),
        rewriting(between, sets, 0, [18, 7, 48, 1]),
        rewriting(behind_two, sets, 0, [18, 9, 64, 3]),
    ]
}

/// 19: the output is one byte too short, or has no byte at all.
fn short() -> Vec<Told> {
    let input = around(b"BIN*6**:~|^'~");
    let length = input.len() as isize;
    vec![
        rewriting(input.clone(), [STANDARD, NEW], -1, [19, 0, 0, 0]),
        rewriting(input.clone(), [STANDARD, NEW], -length, [19, 0, 0, 0]),
        rewriting([input, b"BIN*A|".to_vec()].concat(), [STANDARD, NEW], -6, [0, 7, 1, length as u64]),
    ]
}

/// The reading's answer is returned as it is.
fn refused() -> Vec<Told> {
    let sets = [STANDARD, NEW];
    vec![
        rewriting(around(b"BIN*3*|^'|~"), sets, 0, [10, 6, 38, 2]),
        rewriting(around(b"BIN*0*|~"), sets, 0, [10, 6, 38, 1]),
        rewriting(around(b"BIN|3|ABC~"), sets, 0, [4, 6, 38, 0]),
        rewriting(ending(b"BIN*3*|^'"), sets, 0, [3, 6, 38, 0]),
        rewriting(b"BIN*3*|^'~".to_vec(), sets, 0, [7, 1, 0, 0]),
        rewriting(around(b"BIN~"), sets, 0, [6, 6, 38, 0]),
    ]
}
