//! Lookups: where the count ends exactly with the segment's bytes, BIN02 is whole, and it, BIN01 and the
//! tag are one component each.

use crate::vectors::case::Told;
use crate::vectors::lookups::every;

/// Segments that are not cut by this element separator and this component separator, fit or not.
const WHOLE: [(&[u8], &[u8; 2]); 26] = [
    (b"BIN*3*ABC", b"*:"),
    // Either separator in BIN02.
    (b"BIN*3*A*C", b"*:"),
    (b"BIN*3*A:C", b"*:"),
    (b"BIN*3****", b"*:"),
    (b"BIN*3*:::", b"*:"),
    (b"BIN*3****", b"**"),
    (b"BIN*1**", b"*:"),
    (b"BIN*1*:", b"*:"),
    (b"BIN*1*~", b"*~"),
    (b"BIN*5*A:~\0\xFF", b"*:"),
    (b"BIN*03*A*C", b"*:"),
    (b"BIN*000000000000003*A:C", b"*:"),
    (b"BIN*12*BIN*3*A:C*:*", b"*:"),
    (b"BIN|3|A^C", b"|^"),
    (b"BIN\x013\x01A\x02C", b"\x01\x02"),
    (b"BIN\x003\x00A\x00C", b"\0\0"),
    (b"BIN\xFF3\xFFA\xFEC", b"\xFF\xFE"),
    // The component separator in the tag and in the count.
    (b"BIN*3*III", b"*I"),
    (b"BIN*13*3333333333333", b"*3"),
    // Letters of the tag and digits to cut at.
    (b"BINB3BABC", b"BN"),
    (b"BINI3IIII", b"II"),
    (b"BINN3NANC", b"NB"),
    (b"BIN 3 A C", b" 3"),
    (b"BIN121A1", b"12"),
    (b"BIN313X", b"31"),
    (b"BIN010A", b"01"),
];

/// Segments that are cut wherever these separators stand.
const CUT: [(&[u8], &[u8; 2]); 33] = [
    // One byte fewer, one more.
    (b"BIN*2*A:C", b"*:"),
    (b"BIN*4*A:C", b"*:"),
    (b"BIN*2*A*C", b"*:"),
    (b"BIN*4*A*C", b"*I"),
    (b"BIN*1*", b"*:"),
    (b"BIN*4294967299*A:C", b"*:"),
    // Sixteen digits and more, and no length at all.
    (b"BIN*0000000000000003*A:C", b"*:"),
    (b"BIN*18446744073709551619*A:C", b"*:"),
    (b"BIN*000000000000000*", b"*:"),
    (b"BIN*0*", b"*:"),
    (b"BIN*0*:", b"*:"),
    (b"BIN**A:C", b"*:"),
    (b"BIN*A*A:C", b"*:"),
    (b"BIN*+3*A:C", b"*+"),
    (b"BIN*3:*A:C", b"*:"),
    (b"BIN*3", b"*:"),
    (b"BIN*3~A*C", b"*~"),
    (b"BIN*", b"*:"),
    (b"BIN", b"*I"),
    (b"BI*3*A:C", b"*:"),
    (b"bin*3*A:C", b"*:"),
    (b"BIN:*3*A:C", b"*:"),
    (b"*BIN*3*A:C", b"*:"),
    (b"REF*3*A:C", b"*:"),
    // An element that would be a whole BIN, cut at its components.
    (b"BIN:3:A:C", b"*:"),
    (b"REF*BIN:3:A:C", b"*:"),
    // The byte behind the tag is another than the one to cut at.
    (b"BIN*3*A:C", b":*"),
    (b"BIN:3*A*C", b"*:"),
    // A digit to cut at ends the length where it stands.
    (b"BIN333ABC", b"3A"),
    (b"BIN101X", b"10"),
    (b"BIN0100ABCDEFGHIJ", b"01"),
    (b"BINB3BAB", b"BI"),
    (b"BIN\xFF3\xFFA\xFF", b"\xFF3"),
];

pub fn cases() -> Vec<Told> {
    WHOLE.iter().chain(&CUT).flat_map(|(segment, separators)| every(segment, separators)).collect()
}

#[cfg(test)]
mod tests {
    use super::*;
    use crate::lookup_span;

    #[test]
    fn the_segments_of_the_first_list_are_not_cut() {
        for (segment, [element, component]) in WHOLE {
            let span = |number, part| lookup_span(segment, *element, *component, number, part);
            let (start, length) = span(2, 0);
            assert_eq!(start + length, segment.len(), "{}", segment.escape_ascii());
            assert_eq!([span(0, 0), span(1, 0)], [(0, 3), (4, start - 5)]);
            for number in 0..4 {
                let (start, length) = span(number, 0);
                assert_eq!(span(number, 1), (start, length), "{}", segment.escape_ascii());
                assert_eq!(span(number, 2), (start + length, 0), "{}", segment.escape_ascii());
            }
        }
    }

    #[test]
    fn the_segments_of_the_second_list_are_cut() {
        for (segment, [element, component]) in CUT {
            let found = |number, part| {
                let (start, length) = lookup_span(segment, *element, *component, number, part);
                &segment[start..start + length]
            };
            for (number, piece) in segment.split(|byte| byte == element).enumerate() {
                assert_eq!(found(number, 0), piece, "{}", segment.escape_ascii());
                for (before, part) in piece.split(|byte| byte == component).enumerate() {
                    assert_eq!(found(number, before + 1), part, "{}", segment.escape_ascii());
                }
            }
        }
    }
}
