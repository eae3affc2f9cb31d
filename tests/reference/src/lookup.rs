//! Looking up an element of a segment, or a component of one (document 02, Items 1 and 8). Nothing is
//! refused, whatever the two separators are.

use crate::attached;

/// Where part `part` of element `number` starts in the segment, and its length. Element 0 is the tag,
/// part 0 the whole element, and parts from 1 on are its components. Past the last element comes the
/// empty part at the segment's end, past the last component the empty part at the element's end. A BIN
/// whose count ends exactly with the segment's bytes has two elements, BIN02 whole, and its tag and both
/// of them are one component each; any other segment is cut at every separator.
pub fn lookup_span(segment: &[u8], element: u8, component: u8, number: usize, part: usize) -> (usize, usize) {
    let content = attached::content(segment, element);
    let (start, length) = match content {
        Some(content) => counted_piece(segment, content, number),
        None => piece(segment, element, number),
    };
    let (skipped, length) = match (part, content) {
        (0, _) | (1, Some(_)) => (0, length),
        (_, Some(_)) => (length, 0),
        (_, None) => piece(&segment[start..start + length], component, part - 1),
    };
    (start + skipped, length)
}

/// The tag or an element of a whole BIN, whose BIN02 starts there.
fn counted_piece(segment: &[u8], content: usize, number: usize) -> (usize, usize) {
    match number {
        0 => (0, 3),
        1 => (4, content - 5),
        2 => (content, segment.len() - content),
        _ => (segment.len(), 0),
    }
}

/// The piece that has so many separators before it.
fn piece(bytes: &[u8], separator: u8, before: usize) -> (usize, usize) {
    let mut start = 0;
    for _ in 0..before {
        match bytes[start..].iter().position(|byte| *byte == separator) {
            Some(length) => start += length + 1,
            None => return (bytes.len(), 0),
        }
    }
    let rest = &bytes[start..];
    (start, rest.iter().position(|byte| *byte == separator).unwrap_or(rest.len()))
}
