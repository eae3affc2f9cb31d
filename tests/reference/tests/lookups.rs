//! The one lookup (document 02, Item 8): by hand, against the plain one on every short segment and with
//! every pair of separators, the laws of its places, and what rewriting does to them.

mod plainly;
mod words;

use reference::generator::{report, Case};
use reference::{lookup_span, Answer, SEGMENT_NUMBERS};
use words::words;

/// What is found there, by the element and the component separator.
fn found(segment: &[u8], [element, component]: [u8; 2], number: usize, part: usize) -> &[u8] {
    let (start, length) = lookup_span(segment, element, component, number, part);
    &segment[start..start + length]
}

#[test]
fn elements_by_hand() {
    let segment = b"NCA**R1**5*EA:1";
    let span = |number| lookup_span(segment, b'*', b':', number, 0);
    assert_eq!(span(0), (0, 3));
    assert_eq!(span(1), (4, 0));
    assert_eq!(span(2), (5, 2));
    assert_eq!(span(3), (8, 0));
    assert_eq!(span(4), (9, 1));
    assert_eq!(span(5), (11, 4));
    for number in [6, 7, 1000, usize::MAX] {
        assert_eq!(span(number), (15, 0));
    }
    assert_eq!(lookup_span(b"", b'*', b':', 0, 0), (0, 0));
    assert_eq!(lookup_span(b"", b'*', b':', 1, 0), (0, 0));
}

#[test]
fn components_by_hand() {
    let segment = b"N:C*EA:1::*5";
    let span = |number, part| lookup_span(segment, b'*', b':', number, part);
    assert_eq!([0, 1, 2, 3, usize::MAX].map(|part| span(0, part)), [(0, 3), (0, 1), (2, 1), (3, 0), (3, 0)]);
    assert_eq!([0, 1, 2, 3].map(|part| span(1, part)), [(4, 6), (4, 2), (7, 1), (9, 0)]);
    // Past the last component is the end of the element, not of the segment.
    assert_eq!([4, 5, 6, usize::MAX].map(|part| span(1, part)), [(10, 0); 4]);
    assert_eq!([0, 1, 2, usize::MAX].map(|part| span(2, part)), [(11, 1), (11, 1), (12, 0), (12, 0)]);
    for number in [3, 4, usize::MAX] {
        assert_eq!([0, 1, 2, usize::MAX].map(|part| span(number, part)), [(12, 0); 4]);
    }
    assert_eq!([0, 1, 2].map(|part| lookup_span(b"", b'*', b':', 0, part)), [(0, 0); 3]);
}

#[test]
fn equal_separators_by_hand() {
    let segment = b"A:*:B";
    let parts = |separators, number| [0, 1, 2].map(|part| found(segment, separators, number, part));
    assert_eq!(
        [0, 1, 2].map(|number| parts(*b"**", number)),
        [[&b"A:"[..], b"A:", b""], [b":B", b":B", b""], [b"", b"", b""]]
    );
    assert_eq!(
        [0, 1, 2].map(|number| parts(*b"::", number)),
        [[&b"A"[..], b"A", b""], [b"*", b"*", b""], [b"B", b"B", b""]]
    );
    assert_eq!(lookup_span(segment, b'*', b'*', 0, 2), (2, 0));
    assert_eq!(lookup_span(segment, b':', b':', 1, 2), (3, 0));
}

/// Compares one lookup with the plain one.
fn compare(segment: &[u8], [element, component]: [u8; 2], number: usize, part: usize) {
    assert_eq!(
        lookup_span(segment, element, component, number, part),
        plainly::lookup(segment, element, component, number, part),
        "{} by {element} and {component}, {number} and {part}",
        segment.escape_ascii()
    );
}

/// Compares every lookup with both numbers at most that, or as great as can be.
fn compare_up_to(most: usize, segment: &[u8], separators: [u8; 2]) {
    for number in (0..=most).chain([usize::MAX]) {
        for part in (0..=most).chain([usize::MAX]) {
            compare(segment, separators, number, part);
        }
    }
}

/// The elements joined are the segment, and the components of each joined are the element; a component
/// lies within its element; past the last is the empty part at the end.
fn hold_to_the_laws(segment: &[u8], separators: [u8; 2]) {
    let [element, component] = separators;
    let counts: Vec<usize> =
        plainly::components(segment, element, component).iter().map(|pieces| pieces.len()).collect();
    let elements: Vec<&[u8]> =
        (0..counts.len()).map(|number| found(segment, separators, number, 0)).collect();
    assert_eq!(elements.join(&element), segment);
    for (number, count) in counts.iter().copied().chain([0]).enumerate() {
        let components: Vec<&[u8]> =
            (1..=count).map(|part| found(segment, separators, number, part)).collect();
        assert_eq!(components.join(&component), found(segment, separators, number, 0));
        let (start, length) = lookup_span(segment, element, component, number, 0);
        let end = start + length;
        assert!(end <= segment.len());
        assert!(number < counts.len() || (start, end) == (segment.len(), segment.len()));
        for part in 1..=count + 2 {
            let (first, length) = lookup_span(segment, element, component, number, part);
            assert!(start <= first && first + length <= end);
            assert!(part <= count || (first, length) == (end, 0));
        }
    }
}

#[test]
fn every_short_segment() {
    let all = words(b"*:A", 6);
    assert_eq!(all.len(), (3usize.pow(7) - 1) / 2);
    for segment in all {
        for element in *b"*:A~" {
            for component in *b"*:A~" {
                compare_up_to(segment.len() + 2, &segment, [element, component]);
                hold_to_the_laws(&segment, [element, component]);
            }
        }
    }
}

#[test]
fn every_short_bin() {
    let (mut whole, mut all) = (0, 0);
    for element in *b"*B1" {
        for rest in words(&[element, b':', b'2', b'3', b'A'], 5) {
            let segment = [b"BIN", &[element][..], &rest].concat();
            for component in [b':', element, b'2', b'I', b'A'] {
                compare_up_to(4, &segment, [element, component]);
                hold_to_the_laws(&segment, [element, component]);
            }
            // The tag is one component, though it holds the separator.
            whole += usize::from(found(&segment, [element, b'I'], 0, 1) == b"BIN");
            all += 1;
        }
    }
    println!("{whole} of {all} whole");
    // Two or three bytes of any of the five behind a count of one digit.
    assert_eq!((whole, all), (3 * (5 * 5 + 5 * 5 * 5), 3 * (5usize.pow(6) - 1) / 4));
}

#[test]
fn every_pair_of_separators() {
    for segment in [&b"BIN*3*A:C"[..], b"BIN*2*A:C", b"R:1*EA::\xFF*\0"] {
        for element in 0..=255 {
            for component in 0..=255 {
                for number in 0..3 {
                    for part in 0..4 {
                        compare(segment, [element, component], number, part);
                    }
                }
            }
        }
    }
}

/// The segments of a report before and behind its rewriting to the new separators, where that succeeds.
fn rewritten(case: &Case) -> Vec<[Vec<u8>; 2]> {
    let (mut segments, mut levels) = (vec![0; case.segment_numbers], vec![0; case.level_numbers]);
    let mut output = vec![0; case.output_length];
    let sets = [case.separators, case.new];
    let (segments_lent, levels_lent) = (&mut segments, &mut levels);
    let answer = plainly::rewrite(
        &case.input, sets[0], case.profile, sets[1], segments_lent, levels_lent, &mut output,
    );
    let Answer::Accepted { segments: count, .. } = answer else { return Vec::new() };
    let records = segments.chunks(SEGMENT_NUMBERS).take(count);
    records
        .map(|record| {
            let (start, end) = (record[0] as usize, (record[0] + record[1]) as usize);
            [case.input[start..end].to_vec(), output[start..end].to_vec()]
        })
        .collect()
}

#[test]
fn rewriting_keeps_every_place_and_the_bytes_of_every_component() {
    let (mut reports, mut bins) = (0, 0);
    for case in (0..4000).map(report) {
        let segments = rewritten(&case);
        reports += usize::from(!segments.is_empty());
        let [old, new] = [case.separators, case.new].map(|set| [set.element, set.component]);
        for [before, behind] in &segments {
            bins += usize::from(before.starts_with(b"BIN"));
            for (number, part) in (0..8).flat_map(|number| (0..5).map(move |part| (number, part))) {
                let place = lookup_span(before, old[0], old[1], number, part);
                assert_eq!(lookup_span(behind, new[0], new[1], number, part), place, "seed {}", case.seed);
                let same = found(before, old, number, part) == found(behind, new, number, part);
                assert!(same || part == 0, "seed {}", case.seed);
            }
        }
    }
    println!("{reports} reports, {bins} BINs");
    assert!(reports > 400 && bins > 100);
}
