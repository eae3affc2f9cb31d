//! BINs, whole and broken (document 02, Item 1), and segments to look up their elements in.

use super::draft::{Draft, Segment, Style};
use super::Random;
use crate::rows::Tag;
use crate::Separators;

/// The two elements of a whole BIN: the count, now and then with leading zeros, and as many bytes.
pub fn elements(random: &mut Random, separators: Separators) -> Segment {
    let length = match random.below(12) {
        0 => 1,
        1 => 100 + random.below(400),
        _ => 1 + random.below(40),
    };
    let content = content(random, separators, length);
    let width = if random.chance(20) { random.below(16) } else { 0 };
    vec![format!("{length:0width$}").into_bytes(), content]
}

/// So many bytes of any kind, among them what would end a segment or begin one.
fn content(random: &mut Random, separators: Separators, length: usize) -> Vec<u8> {
    let mut content = Vec::new();
    while content.len() < length {
        content.extend(fragment(random, separators));
    }
    content.truncate(length);
    content
}

fn fragment(random: &mut Random, separators: Separators) -> Vec<u8> {
    let Separators { element, component, terminator } = separators;
    match random.below(10) {
        0 => vec![terminator],
        1 => vec![element; 1 + random.below(3)],
        2 => vec![component; 1 + random.below(2)],
        3 => [&[terminator], &b"SE"[..], &[element], b"3", &[element], b"0001", &[terminator]].concat(),
        4 => vec![b'B', b'I', b'N', element, b'0' + random.below(10) as u8, element],
        5 => vec![*random.pick(&[0, 10, 13, 127, 255])],
        6 => (0..4).map(|_| random.below(256) as u8).collect(),
        7 => vec![terminator, b'\r', b'\n'],
        _ => (0..1 + random.below(8)).map(|_| 32 + random.below(95) as u8).collect(),
    }
}

/// Damages one of the report's BINs at its tag, its count, its separators or its end, or moves it; where
/// there is none, one comes in, mostly out of place, whole or damaged.
pub fn damage(random: &mut Random, style: &Style, draft: &mut Draft) {
    let counted = |segment: &Segment| segment[0] == b"BIN" && segment.len() == 3;
    let places: Vec<usize> = (0..draft.segments.len()).filter(|at| counted(&draft.segments[*at])).collect();
    if places.is_empty() {
        let at = random.below(draft.segments.len() + 1);
        draft.segments.insert(at, style.segment(random, Tag::BIN));
        if random.chance(50) {
            damage_at(random, style, draft, at);
        }
    } else {
        let at = *random.pick(&places);
        damage_at(random, style, draft, at);
    }
}

fn damage_at(random: &mut Random, style: &Style, draft: &mut Draft, at: usize) {
    match random.below(12) {
        0..=6 => draft.segments[at][1] = other_count(random, &draft.segments[at][2]),
        7 => lose_separator(random, &mut draft.segments[at]),
        8 => draft.segments[at].truncate(1),
        9 => draft.segments[at][0].push(style.separators.component),
        10 => swallow(random, draft, at),
        _ => {
            let bin = draft.segments.remove(at);
            let to = random.below(draft.segments.len() + 1);
            draft.segments.insert(to, bin);
        }
    }
}

/// A count that does not end with these bytes, or that is none; or the right one in fifteen digits.
fn other_count(random: &mut Random, content: &[u8]) -> Vec<u8> {
    let right = content.len();
    let text = match random.below(12) {
        0 | 1 => right.saturating_sub(1).to_string(),
        2 | 3 => (right + 1).to_string(),
        4 => "0".repeat(1 + random.below(14)),
        5 => String::new(),
        6 => format!("{right:015}"),
        7 => format!("{right:016}"),
        8 => "0".repeat(15),
        9 => (right + random.below(1000)).to_string(),
        10 => "9".repeat(1 + random.below(17)),
        _ => {
            let mut text = right.to_string();
            let at = random.below(text.len() + 1);
            text.insert(at, *random.pick(&['A', 'x', ' ', '-', '+', '.', '\0']));
            text
        }
    };
    text.into_bytes()
}

/// The separator behind the count goes, or all that follows it.
fn lose_separator(random: &mut Random, segment: &mut Segment) {
    let content = segment.pop().unwrap_or_default();
    if random.chance(50) {
        segment[1].extend(content);
    }
}

/// The next segment comes to stand behind BIN02 without a terminator between them; or with one, and the
/// count then takes in both.
fn swallow(random: &mut Random, draft: &mut Draft, at: usize) {
    if at + 1 == draft.segments.len() {
        return;
    }
    let next = draft.segments.remove(at + 1).join(&draft.separators.element);
    let bin = &mut draft.segments[at];
    if random.chance(50) {
        bin[2].push(draft.separators.terminator);
        bin[1] = (bin[2].len() + next.len()).to_string().into_bytes();
    }
    bin[2].extend(next);
}

/// Where BIN and the element separator stand.
fn bins(input: &[u8], separators: Separators) -> Vec<usize> {
    let lead = [b'B', b'I', b'N', separators.element];
    (0..input.len()).filter(|at| input[*at..].starts_with(&lead)).collect()
}

/// The place of a byte to damage: any, or one near the start of a BIN.
pub fn byte_place(random: &mut Random, input: &[u8], separators: Separators) -> usize {
    let bins = bins(input, separators);
    if bins.is_empty() || random.chance(60) {
        return random.below(input.len());
    }
    let start = *random.pick(&bins);
    start + random.below((input.len() - start).min(60))
}

/// The input ends within a BIN, often right behind its count: in the place of one that is there, or
/// behind a terminator.
pub fn end_within(random: &mut Random, input: &mut Vec<u8>, separators: Separators) {
    let mut starts = bins(input, separators);
    if starts.is_empty() || random.chance(30) {
        starts = (0..input.len()).filter(|at| input[*at] == separators.terminator).map(|at| at + 1).collect();
    }
    if !starts.is_empty() {
        input.truncate(*random.pick(&starts));
    }
    let mut elements = elements(random, separators);
    if random.chance(60) {
        elements[0] = other_count(random, &elements[1]);
    }
    let behind_count = 4 + elements[0].len();
    let bin = [vec![b"BIN".to_vec()], elements].concat().join(&separators.element);
    let length = match random.below(3) {
        0 => random.below(bin.len() + 1),
        1 => behind_count,
        _ => behind_count + random.below(3),
    };
    input.extend(bin.iter().take(length));
}

/// A segment that begins with BIN, and the byte to cut it at, which may be any. Mostly its count ends
/// exactly with the segment, one byte before that, or one behind it.
pub fn counted_segment(random: &mut Random) -> (Vec<u8>, u8) {
    let any = random.below(256) as u8;
    let element = *random.pick(&[b'*', b'*', b'|', 1, 0, 255, b'B', b'N', b'0', b'1', any]);
    let longest = *random.pick(&[3, 24, 24, 24, 24, 24, 300]);
    let length = random.below(longest);
    let content = content(random, Separators::new(element, b':', b'~'), length);
    let count = match random.below(8) {
        0 => length.saturating_sub(1),
        1 => length + 1,
        2 => random.below(30),
        _ => length,
    };
    let width = *random.pick(&[0, 0, 0, 2, 3, 14, 15, 16, 17]);
    let count = format!("{count:0width$}").into_bytes();
    let mut segment = [&b"BIN"[..], &[element], &count, &[element], &content].concat();
    if random.chance(10) {
        let at = random.below(segment.len().min(24));
        segment[at] = *random.pick(&[element, b'0', b'7', b'X', b'*']);
    }
    (segment, element)
}
