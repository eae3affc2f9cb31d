//! Damage to a report, to its segments and elements or to its bytes.

use super::draft::{Draft, Segment, Style};
use super::{attached, numbers, Random};
use crate::rows::{tag_number, Tag, NEXT, TAGS};
use crate::{Profile, Separators, CODES};

/// So many damages of a hundred to a reply are a row that it may not have.
const FOREIGN: usize = 15;

/// Damages segments and elements so many times. Mostly SE01 is counted anew afterwards, so that
/// the report fails for the damage and not for the count.
pub fn segments(random: &mut Random, draft: &mut Draft, times: usize) {
    let style = Style { separators: draft.separators, mixed: random.chance(50) };
    let mut closing_hit = false;
    for _ in 0..times {
        if draft.profile == Profile::Reply && random.chance(FOREIGN) {
            insert_foreign(random, &style, draft);
            continue;
        }
        match random.below(18) {
            0 => copy_segment(random, draft),
            1 => remove_segment(random, draft),
            2 => swap_segments(random, draft),
            3 => insert_segment(random, &style, draft),
            4 => change_tag(random, &style, draft),
            5..=7 => change_element(random, &style, draft),
            8..=10 => change_level(random, &style, draft),
            11 => change_composite(random, &style, draft),
            12 => clear_element(random, draft),
            13 | 14 => attached::damage(random, &style, draft),
            15 | 16 => change_number(random, &style, draft),
            _ => {
                closing_hit = true;
                change_closing(random, &style, draft);
            }
        }
    }
    if times > 0 && !closing_hit && random.chance(85) {
        count_anew(draft);
    }
}

fn count_anew(draft: &mut Draft) {
    let count = draft.segments.len().to_string().into_bytes();
    if let Some(closing) = draft.segments.last_mut().filter(|last| last[0] == b"SE" && last.len() > 1) {
        closing[1] = count;
    }
}

/// The place of any segment.
fn place(random: &mut Random, draft: &Draft) -> usize {
    random.below(draft.segments.len())
}

fn copy_segment(random: &mut Random, draft: &mut Draft) {
    if draft.segments.is_empty() {
        return;
    }
    let from = place(random, draft);
    let copy = draft.segments[from].clone();
    let to = if random.chance(70) { from } else { place(random, draft) };
    for _ in 0..1 + random.below(2) {
        draft.segments.insert(to, copy.clone());
    }
}

fn remove_segment(random: &mut Random, draft: &mut Draft) {
    if !draft.segments.is_empty() {
        let at = place(random, draft);
        draft.segments.remove(at);
    }
}

fn swap_segments(random: &mut Random, draft: &mut Draft) {
    if draft.segments.len() >= 2 {
        let at = random.below(draft.segments.len() - 1);
        draft.segments.swap(at, at + 1);
    }
}

fn insert_segment(random: &mut Random, style: &Style, draft: &mut Draft) {
    let tag = random.pick(&TAGS).0;
    let segment = match tag {
        Tag::ST => vec![b"ST".to_vec(), b"842".to_vec(), b"0001".to_vec()],
        Tag::HL => vec![b"HL".to_vec(), style.text(random, 1, 12), Vec::new(), b"I".to_vec()],
        Tag::SE => vec![b"SE".to_vec(), b"3".to_vec(), b"0001".to_vec()],
        _ => style.segment(random, tag),
    };
    let at = random.below(draft.segments.len() + 1);
    draft.segments.insert(at, segment);
}

/// A segment comes in where the list has a row for it and the profile has not; where no such place is, any.
fn insert_foreign(random: &mut Random, style: &Style, draft: &mut Draft) {
    let places = foreign_places(draft);
    if places.is_empty() {
        return insert_segment(random, style, draft);
    }
    let (at, tag) = *random.pick(&places);
    draft.segments.insert(at, style.segment(random, tag));
}

/// All such places with their tags, up to the first segment for which the list has no row.
fn foreign_places(draft: &Draft) -> Vec<(usize, Tag)> {
    let mut places = Vec::new();
    let mut row = 0;
    for (at, segment) in draft.segments.iter().enumerate() {
        let foreign = |tag: &Tag| {
            let next = usize::from(NEXT[row][*tag as usize]);
            next != 0 && !draft.profile.has(next)
        };
        places.extend(TAGS.iter().map(|(tag, _)| *tag).filter(foreign).map(|tag| (at, tag)));
        row = tag_number(&segment[0]).map_or(0, |tag| usize::from(NEXT[row][tag]));
        if row == 0 {
            break;
        }
    }
    places
}

fn change_tag(random: &mut Random, style: &Style, draft: &mut Draft) {
    if draft.segments.is_empty() {
        return;
    }
    let at = place(random, draft);
    let tag = &mut draft.segments[at][0];
    match random.below(6) {
        0 => *tag = style.text(random, 0, 4),
        1 => tag.push(b'X'),
        2 => drop(tag.pop()),
        3 => tag.make_ascii_lowercase(),
        4 => tag.push(style.separators.component),
        _ => *tag = random.pick(&TAGS).1.as_bytes().to_vec(),
    }
}

/// A segment to damage within: mostly a ruled one.
fn segment_with_rules<'a>(random: &mut Random, draft: &'a mut Draft) -> Option<&'a mut Segment> {
    let ruled = |segment: &Segment| {
        [&b"ST"[..], b"N1", b"DTM", b"HL", b"LIN", b"NTE", b"NCA", b"SE"].contains(&&segment[0][..])
    };
    let only_ruled = random.chance(85);
    let places: Vec<usize> =
        (0..draft.segments.len()).filter(|at| !only_ruled || ruled(&draft.segments[*at])).collect();
    if places.is_empty() {
        return None;
    }
    draft.segments.get_mut(*random.pick(&places))
}

fn change_element(random: &mut Random, style: &Style, draft: &mut Draft) {
    let Some(segment) = segment_with_rules(random, draft) else {
        return;
    };
    match random.below(8) {
        0 => segment.truncate(random.below(segment.len()) + 1),
        1 => segment.extend((0..1 + random.below(3)).map(|_| style.text(random, 0, 3))),
        2 => {
            let at = 1 + random.below(segment.len());
            segment.insert(at, style.text(random, 0, 5));
        }
        3 if segment.len() > 1 => {
            let at = 1 + random.below(segment.len() - 1);
            segment.remove(at);
        }
        _ if segment.len() > 1 => {
            let at = 1 + random.below(segment.len() - 1);
            change_text(random, style, &mut segment[at]);
        }
        _ => {}
    }
}

/// An element in the middle goes: a mandatory one may be missing then, or a note be broken.
fn clear_element(random: &mut Random, draft: &mut Draft) {
    if let Some(segment) = segment_with_rules(random, draft).filter(|segment| segment.len() > 2) {
        let at = 1 + random.below(segment.len() - 2);
        segment[at].clear();
    }
}

/// Damages a component of NCA05.
fn change_composite(random: &mut Random, style: &Style, draft: &mut Draft) {
    let places: Vec<usize> = (0..draft.segments.len())
        .filter(|at| draft.segments[*at][0] == b"NCA" && draft.segments[*at].len() == 6)
        .collect();
    if places.is_empty() {
        return change_element(random, style, draft);
    }
    let composite = &mut draft.segments[*random.pick(&places)][5];
    let mut components: Segment =
        composite.split(|byte| *byte == style.separators.component).map(<[u8]>::to_vec).collect();
    let at = random.below(components.len());
    match random.below(4) {
        0 => components[0].clear(),
        1 => components.push(style.code(random, 2, 2)),
        2 => components[at].push(*random.pick(b"0.-A")),
        _ => change_text(random, style, &mut components[at]),
    }
    *composite = components.join(&style.separators.component);
}

/// Breaks a number; where none can stand, another element changes.
fn change_number(random: &mut Random, style: &Style, draft: &mut Draft) {
    if !numbers::damage(random, style, draft) {
        change_element(random, style, draft);
    }
}

fn change_text(random: &mut Random, style: &Style, text: &mut Vec<u8>) {
    let inside = random.below(text.len() + 1);
    match random.below(12) {
        0..=2 => text.clear(),
        3 => text.push(style.separators.component),
        4 => text.insert(inside, style.separators.component),
        5 => text.extend(style.text(random, 1, 90)),
        6 => drop(text.pop()),
        7 => *text = style.text(random, 1, 15),
        8 => *text = style.code(random, 1, 9),
        9 => text.insert(inside, *random.pick(b"-.+ aZE09")),
        10 => *text = (0..random.below(16)).map(|_| *random.pick(b"0123456789.-E")).collect(),
        _ => {
            let many = vec![style.separators.component; 13 + random.below(5)];
            *text = [b"EA", &many[..], b"EA"].concat();
        }
    }
}

fn change_level(random: &mut Random, style: &Style, draft: &mut Draft) {
    let places: Vec<usize> = (0..draft.segments.len()).filter(|at| draft.segments[*at][0] == b"HL").collect();
    if places.is_empty() {
        return;
    }
    let other = &draft.segments[*random.pick(&places)];
    let mut name = other.get(1).cloned().unwrap_or_default();
    if random.chance(15) {
        name = style.text(random, 1, 3);
    } else if random.chance(10) {
        name.pop();
    }
    let segment = &mut draft.segments[*random.pick(&places)];
    segment.resize(segment.len().max(5), Vec::new());
    match random.below(5) {
        0 => segment[1] = name,
        1 => segment[2] = name,
        2 => segment[2].clear(),
        3 => segment[3] = random.pick(&["RP", "I", "F", "PC", "SN", "RB", "X"]).as_bytes().to_vec(),
        _ => segment[4] = random.pick(&["", "0", "0", "1", "1", "2", "A"]).as_bytes().to_vec(),
    }
    if random.chance(10) {
        segment[3] = random.pick(&CODES).as_bytes().to_vec();
    }
    while segment.len() > 1 && segment.last().is_some_and(Vec::is_empty) {
        segment.pop();
    }
}

fn change_closing(random: &mut Random, style: &Style, draft: &mut Draft) {
    let count = draft.segments.len();
    let Some(closing) = draft.segments.last_mut().filter(|last| last[0] == b"SE" && last.len() > 2) else {
        return;
    };
    match random.below(5) {
        0 => closing[1] = (count + 1).to_string().into_bytes(),
        1 => closing[1] = (count - 1).to_string().into_bytes(),
        2 => closing[1] = format!("{}{count}", 1 + random.below(9)).into_bytes(),
        3 => closing[2] = style.text(random, 4, 9),
        _ => closing[2].push(b'0'),
    }
}

/// Any byte, a separator or an odd one more often than not.
pub fn any_byte(random: &mut Random, separators: Separators) -> u8 {
    match random.below(8) {
        0 => separators.element,
        1 => separators.component,
        2 => separators.terminator,
        3 => *random.pick(b"\0\x01\n\r\x1F\x7F\x80\xFF"),
        4 => random.below(256) as u8,
        _ => 32 + random.below(95) as u8,
    }
}

/// Damages bytes so many times, some of them in a BIN.
pub fn bytes(random: &mut Random, input: &mut Vec<u8>, separators: Separators, times: usize) {
    for _ in 0..times {
        if input.is_empty() {
            return;
        }
        let at = attached::byte_place(random, input, separators);
        match random.below(7) {
            0 => input[at] ^= 1 << random.below(8),
            1 => input[at] = any_byte(random, separators),
            2 => drop(input.remove(at)),
            3 => input.insert(at, any_byte(random, separators)),
            4 => input.truncate(at),
            5 => attached::end_within(random, input, separators),
            _ => {
                let to = at + random.below(input.len() - at + 1);
                let part = input[at..to].to_vec();
                input.splice(at..at, part);
            }
        }
    }
}
