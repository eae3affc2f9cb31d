//! The lookup: elements of a segment, component 0 being the whole element, and their components. Every number is
//! answered.

use std::ops::Range;
use stormhlaw::{raw, Segment, Separators};

const STANDARD: Separators = Separators::STANDARD;

/// Numbers past every element and component, as far as there are any.
const FAR: [usize; 3] = [100, 1 << 40, usize::MAX];

fn segment(bytes: &[u8]) -> Segment<'_> {
    Segment::new(bytes, STANDARD)
}

/// Where the whole element of that number stands, and each of its first components.
fn spans<const COUNT: usize>(segment: Segment, number: usize) -> [Range<usize>; COUNT] {
    let mut part = 0;
    [(); COUNT].map(|_| {
        part += 1;
        segment.span(number, part - 1)
    })
}

/// Where the pieces of that range stand, by cutting it with `split`.
fn pieces(bytes: &[u8], separator: u8, range: Range<usize>) -> Vec<Range<usize>> {
    let mut start = range.start;
    let next = |piece: &[u8]| {
        let span = start..start + piece.len();
        start = span.end + 1;
        span
    };
    bytes[range].split(|byte| *byte == separator).map(next).collect()
}

/// Where a part of a segment that is no whole BIN stands, by cutting it plainly.
fn plainly(segment: Segment, number: usize, part: usize) -> Range<usize> {
    let (bytes, separators) = (segment.bytes(), segment.separators());
    let (all, at_the_end) = (0..bytes.len(), bytes.len()..bytes.len());
    match (pieces(bytes, separators.element, all).get(number), part.checked_sub(1)) {
        (None, _) => at_the_end,
        (Some(whole), None) => whole.clone(),
        (Some(whole), Some(before)) => {
            let components = pieces(bytes, separators.component, whole.clone());
            components.get(before).cloned().unwrap_or(whole.end..whole.end)
        }
    }
}

/// Tests that the segment is cut plainly, in every way that it can be asked.
fn is_cut_plainly(segment: Segment) {
    let numbers = || (0..segment.bytes().len() + 2).chain(FAR);
    for number in numbers() {
        for part in numbers() {
            let (found, wanted) = (segment.span(number, part), plainly(segment, number, part));
            assert_eq!(found, wanted, "element {number}, component {part} of {segment:?}");
            assert_eq!(segment.component(number, part), &segment.bytes()[wanted]);
        }
        assert_eq!(segment.element(number), segment.component(number, 0));
    }
}

#[test]
fn component_0_is_the_whole_element() {
    let hl = segment(b"HL*2**I");
    let found: Vec<&[u8]> = (0..6).map(|number| hl.element(number)).collect();
    assert_eq!(found, [&b"HL"[..], b"2", b"", b"I", b"", b""]);
    let found: Vec<_> = (0..6).map(|number| hl.span(number, 0)).collect();
    assert_eq!(found, [0..2, 3..4, 5..5, 6..7, 7..7, 7..7]);
    let nca = segment(b"NCA**R1**5*EA:2:10");
    assert_eq!((nca.tag(), nca.element(5)), (&b"NCA"[..], &b"EA:2:10"[..]));
    assert_eq!((nca.component(0, 0), nca.component(5, 0)), (nca.tag(), nca.element(5)));
}

#[test]
fn components_of_an_element() {
    let nca = segment(b"NCA*EA:25::1*X");
    let found: Vec<&[u8]> = (0..6).map(|part| nca.component(1, part)).collect();
    assert_eq!(found, [&b"EA:25::1"[..], b"EA", b"25", b"", b"1", b""]);
    assert_eq!(spans(nca, 1), [4..12, 4..6, 7..9, 10..10, 11..12]);
    assert_eq!(spans(nca, 2), [13..14, 13..14, 14..14]);
    assert_eq!(spans(segment(b"A*:*B"), 1), [2..3, 2..2, 3..3, 3..3]);
    assert_eq!(spans(segment(b"HL*2**I"), 2), [5..5, 5..5, 5..5]);
}

#[test]
fn the_tag_has_components_too() {
    let odd = segment(b"A:BC*1");
    assert_eq!(spans(odd, 0), [0..4, 0..1, 2..4, 4..4]);
    assert_eq!((odd.tag(), odd.component(0, 2)), (&b"A:BC"[..], &b"BC"[..]));
    assert_eq!(spans(segment(b"HL*1"), 0), [0..2, 0..2, 2..2]);
}

#[test]
fn past_the_last() {
    let nca = segment(b"NCA*EA:25::1*X");
    for part in FAR.into_iter().chain([5, 6]) {
        assert_eq!(nca.span(0, part), 3..3);
        assert_eq!(nca.span(1, part), 12..12, "at the element's end");
    }
    for number in FAR.into_iter().chain([3, 4]) {
        for part in FAR.into_iter().chain([0, 1, 2]) {
            assert_eq!(nca.span(number, part), 14..14, "at the segment's end");
            assert_eq!(nca.component(number, part), b"");
        }
    }
}

#[test]
fn an_empty_segment_has_an_empty_tag() {
    for number in FAR.into_iter().chain([0, 1]) {
        for part in FAR.into_iter().chain([0, 1, 2]) {
            assert_eq!(segment(b"").span(number, part), 0..0);
        }
    }
}

#[test]
fn every_short_segment_of_these_bytes() {
    let mut texts = vec![Vec::new()];
    for _ in 0..6 {
        let longer = |text: &Vec<u8>| [b'*', b':', b'A'].map(|more| [&text[..], &[more]].concat());
        texts = texts.iter().flat_map(longer).collect();
        for text in &texts {
            is_cut_plainly(segment(text));
        }
    }
}

#[test]
fn any_two_bytes_separate() {
    for one in 0..=u8::MAX {
        for other in [0, b':', b'A', one] {
            for (element, component) in [(one, other), (other, one)] {
                let separators = Separators { element, component, ..STANDARD };
                is_cut_plainly(Segment::new(b"A*:\0A*\xff:", separators));
            }
        }
    }
    let other = Separators { element: b'|', component: b'^', terminator: b'\'' };
    assert_eq!(spans(Segment::new(b"A|B^C|*:", other), 1), [2..5, 2..3, 4..5, 5..5]);
    let the_same = Separators { component: b'*', ..STANDARD };
    assert_eq!(spans(Segment::new(b"A*B*C", the_same), 1), [2..3, 2..3, 3..3]);
}

#[test]
fn parts_of_a_whole_bin_are_one_component_each() {
    let bytes = b"BIN*12*:BIN*8*:~\0\xff:";
    for component in 0..=u8::MAX {
        let bin = Segment::new(bytes, Separators { component, ..STANDARD });
        assert_eq!(spans(bin, 0), [0..3, 0..3, 3..3, 3..3], "{component}");
        assert_eq!(spans(bin, 1), [4..6, 4..6, 6..6, 6..6], "{component}");
        assert_eq!(spans(bin, 2), [7..19, 7..19, 19..19, 19..19], "{component}");
        assert_eq!(spans(bin, 3), [19..19, 19..19, 19..19], "{component}");
        for far in FAR {
            let found = [0, 1, 2, far].map(|number| bin.span(number, far));
            assert_eq!(found, [3..3, 6..6, 19..19, 19..19], "{component}");
        }
    }
    assert_eq!(segment(bytes).component(2, 1), &bytes[7..]);
    assert_eq!(segment(bytes).component(2, 2), b"");
    let bin = Segment::new(b"BIN|2|^|", Separators { element: b'|', component: b'^', terminator: b'\'' });
    assert_eq!(spans(bin, 2), [6..8, 6..8, 8..8]);
}

#[test]
fn any_other_bin_is_cut() {
    let attached = b":*~:BIN*1*:*";
    for count in 0..=13 {
        for length in 0..=attached.len() {
            let bytes = [format!("BIN*{count}*").as_bytes(), &attached[..length]].concat();
            if count == length && count > 0 {
                let start = bytes.len() - length;
                assert_eq!(spans(segment(&bytes), 2), [start..bytes.len(), start..bytes.len()]);
            } else {
                is_cut_plainly(segment(&bytes));
            }
        }
    }
    for bytes in [&b"BIN"[..], b"BIN*", b"BIN*1", b"BIN:3*A:C", b"BIN**A:", b"BINS*3*A:C", b"bin*3*A:C"] {
        is_cut_plainly(segment(bytes));
    }
    let letters = Separators { component: b'I', ..STANDARD };
    assert_eq!(spans(Segment::new(b"BIN*2*:", letters), 0), [0..3, 0..1, 2..3, 3..3]);
}

#[test]
fn plain_numbers_are_start_and_length() {
    assert_eq!(raw::lookup(b"NCA*EA:25*X", b'*', b':', 1, 0), [4, 5]);
    assert_eq!(raw::lookup(b"NCA*EA:25*X", b'*', b':', 1, 2), [7, 2]);
    assert_eq!(raw::lookup(b"NCA*EA:25*X", b'*', b':', 1, u64::MAX), [9, 0]);
    assert_eq!(raw::lookup(b"NCA*EA:25*X", b'*', b':', u64::MAX, u64::MAX), [11, 0]);
    assert_eq!(raw::lookup(b"", 0, 0, 0, 0), [0, 0]);
}

#[test]
fn a_segment_is_its_bytes_and_separators() {
    let hl = segment(b"HL*1");
    let copy = hl;
    assert_eq!((hl.bytes(), hl.separators()), (&b"HL*1"[..], STANDARD));
    assert_eq!(hl, copy);
    assert_ne!(hl, segment(b"HL*2"));
    assert_ne!(hl, Segment::new(b"HL*1", Separators { component: b'^', ..STANDARD }));
}

/// What is looked up lives as long as the bytes, and not only as the segment.
fn first(bytes: &[u8]) -> &[u8] {
    segment(bytes).element(1)
}

#[test]
fn a_part_outlives_its_segment() {
    assert_eq!(first(b"HL*1"), b"1");
}
