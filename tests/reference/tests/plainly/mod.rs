//! Lookup and rewriting said plainly once more, for the tests to compare with.

use reference::plain::read_plain;
use reference::{Answer, LineEnds, Profile, Separators, SEGMENT_NUMBERS};

/// The components of each element of a segment, the tag's first. In a BIN whose count ends exactly with
/// the segment's bytes each piece is one; any other segment is cut at every separator.
pub fn components(segment: &[u8], element: u8, component: u8) -> Vec<Vec<&[u8]>> {
    match counted(segment, element) {
        Some(pieces) => pieces.into_iter().map(|piece| vec![piece]).collect(),
        None => {
            let elements = segment.split(|byte| *byte == element);
            elements.map(|piece| piece.split(|byte| *byte == component).collect()).collect()
        }
    }
}

/// The three pieces of a BIN whose count ends exactly with the segment's bytes.
fn counted(segment: &[u8], separator: u8) -> Option<Vec<&[u8]>> {
    let behind_tag = segment.strip_prefix(&[b'B', b'I', b'N', separator])?;
    let end = behind_tag.iter().position(|byte| *byte == separator)?;
    let (digits, content) = (&behind_tag[..end], &behind_tag[end + 1..]);
    let text =
        std::str::from_utf8(digits).ok().filter(|text| text.bytes().all(|byte| byte.is_ascii_digit()))?;
    let count: usize = text.parse().ok()?;
    let whole = digits.len() <= 15 && count >= 1 && count == content.len();
    whole.then(|| vec![&segment[..3], digits, content])
}

/// How long pieces are with a separator behind each.
fn with_separators(pieces: &[&[u8]]) -> usize {
    pieces.iter().map(|piece| piece.len() + 1).sum()
}

/// Where an element, or from 1 on a component of it, starts, and its length: behind all that stands before
/// it. What is not there is empty, at the end of what it would stand in.
pub fn lookup(segment: &[u8], element: u8, component: u8, number: usize, part: usize) -> (usize, usize) {
    let elements = components(segment, element, component);
    let Some(pieces) = elements.get(number) else { return (segment.len(), 0) };
    let start: usize = elements[..number].iter().map(|pieces| with_separators(pieces)).sum();
    let length = with_separators(pieces) - 1;
    if part == 0 {
        return (start, length);
    }
    match pieces.get(part - 1) {
        Some(piece) => (start + with_separators(&pieces[..part - 1]), piece.len()),
        None => (start + length, 0),
    }
}

fn refused(number: usize, segment: usize, byte: usize, element: usize) -> Answer {
    Answer::Refused { number, segment, byte, element }
}

/// Rewriting, segment by segment and element by element. It reads strictly, by the profile.
pub fn rewrite(
    input: &[u8],
    old: Separators,
    profile: Profile,
    new: Separators,
    segments: &mut [u64],
    levels: &mut [u64],
    output: &mut [u8],
) -> Answer {
    if !old.fit() {
        return refused(1, 0, 0, 0);
    }
    if !new.fit() {
        return refused(1, 0, 0, 1);
    }
    let answer = read_plain(input, old, LineEnds::Strict, profile, segments, levels);
    let Answer::Accepted { segments: count, .. } = answer else { return answer };
    let mut written = Vec::new();
    for (at, record) in segments.chunks(SEGMENT_NUMBERS).take(count).enumerate() {
        let (start, length) = (record[0] as usize, record[1] as usize);
        match rewrite_segment(&input[start..start + length], old, new) {
            Ok(segment) => written.extend(segment),
            Err(element) => return refused(18, at + 1, start, element),
        }
    }
    match output.get_mut(..written.len()) {
        Some(output) => output.copy_from_slice(&written),
        None => return refused(19, 0, 0, 0),
    }
    answer
}

/// One segment with its terminator, or the first element in which a data byte is a new separator.
fn rewrite_segment(segment: &[u8], old: Separators, new: Separators) -> Result<Vec<u8>, usize> {
    let mut rewritten: Vec<Vec<u8>> = Vec::new();
    for (number, pieces) in components(segment, old.element, old.component).iter().enumerate() {
        let attached = number == 2 && segment.starts_with(&[b'B', b'I', b'N', old.element]);
        let collides = |byte: &u8| [new.element, new.component, new.terminator].contains(byte);
        if !attached && pieces.concat().iter().any(collides) {
            return Err(number);
        }
        rewritten.push(pieces.join(&new.component));
    }
    Ok([rewritten.join(&new.element), vec![new.terminator]].concat())
}
