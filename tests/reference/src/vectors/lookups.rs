//! Lookups: every element and component of several segments, 0, one past the last, and far past it.

use super::case::{Case, Told};

/// As far past the last as a case can ask for.
const FAR: usize = 65_535;

/// Segments, and the pairs of separators that each is looked up by, the element's first, fit or not.
const SEGMENTS: [(&[u8], &[&[u8; 2]]); 23] = [
    (b"HL*2*1*I*0", &[b"*:", b":*", b"**", b"H0", b"~1"]),
    (b"NCA**R1**5*EA:1:22", &[b"*:", b":*", b"*2"]),
    (b"NCA**R1**5*EA::2:::5", &[b"*:"]),
    // The tag too has components, and empty ones stand first, last, alone and between others.
    (b"R:E::F*A*:B*C:*:*::*D:E", &[b"*:", b":*", b"::"]),
    (b":*A", &[b"*:"]),
    (b"ST*842*0001~BNR*1", &[b"*~", b"~*"]),
    // Only the tag; it is empty, or an element is.
    (b"REF", &[b"*:", b"RF", b"FR", b"EE"]),
    (b"REF*", &[b"*:", b":*"]),
    (b"*REF", &[b"*:", b":*"]),
    (b"EA:1:22", &[b"*:", b"*E", b"*2"]),
    (b"A", &[b"*:", b"A:", b"*A", b"AA"]),
    (b":A", &[b"*:"]),
    (b"A:", &[b"*:"]),
    (b"\xFF:\xFF", &[b"*:", b"*\xFF", b"\xFF:"]),
    // No byte at all, and separators alone.
    (b"", &[b"*:", b"**", b"\0\xFF"]),
    (b"*", &[b"*:", b":*", b"**"]),
    (b"***", &[b"*:", b":*", b"**"]),
    (b"::", &[b"*:"]),
    (b"*:", &[b"*:", b":*", b"**"]),
    (b":*:", &[b"*:", b":*", b"::"]),
    (b"::**::", &[b"*:", b":*"]),
    (b"AAAA", &[b"AA", b"A:", b":A"]),
    (b"\0\x01\0\xFF\0", &[b"\0\x01", b"\x01\0", b"\0\xFF", b"\xFF\0", b"\0\0"]),
];

pub fn cases() -> Vec<Told> {
    let each =
        SEGMENTS.iter().flat_map(|(segment, pairs)| pairs.iter().flat_map(|pair| every(segment, pair)));
    each.chain(many()).collect()
}

/// Every element with every component, each number one past the last too and far past it. Where a
/// count keeps bytes together, fewer are there than are asked for.
pub fn every(segment: &[u8], separators: &[u8; 2]) -> Vec<Told> {
    let [element, component] = *separators;
    let pieces: Vec<&[u8]> = segment.split(|byte| *byte == element).collect();
    let mut asked = Vec::new();
    for (number, piece) in pieces.iter().enumerate() {
        let components = piece.split(|byte| *byte == component).count();
        asked.extend((0..=components + 1).chain([FAR]).map(|part| (number, part)));
    }
    for number in [pieces.len(), FAR] {
        asked.extend([0, 1, FAR].map(|part| (number, part)));
    }
    asked.into_iter().map(|(number, part)| lookup(segment, separators, number, part)).collect()
}

/// One case.
fn lookup(segment: &[u8], separators: &[u8; 2], number: usize, part: usize) -> Told {
    let [element, component] = *separators;
    Case::Lookup { segment: segment.to_vec(), element, component, number, part }.into()
}

/// Many elements, and many components of one element: numbers of two bytes.
fn many() -> Vec<Told> {
    let elements = [b'*'; 300];
    let components = [&b"A*"[..], &[b':'; 300], b"*B"].concat();
    let mut cases = Vec::new();
    for number in [0, 1, 255, 256, 257, 299, 300, 301, 556] {
        cases.push(lookup(&elements, b"*:", number, 0));
        cases.push(lookup(&components, b"*:", 1, number));
    }
    for (number, part) in [(300, 1), (300, 256), (299, 2), (301, 1)] {
        cases.push(lookup(&elements, b"*:", number, part));
    }
    for (number, part) in [(2, 0), (257, 1), (2, 257), (2, 301)] {
        cases.push(lookup(&components, b"*:", number, part));
    }
    cases
}
