//! A valid report as pieces, before it becomes bytes.

use super::lines::Lines;
use super::{attached, numbers, Random};
use crate::rows::{Tag, MOST, NEXT, TAGS};
use crate::{Profile, Separators, CODES};

/// A segment as pieces: the tag, then the elements.
pub type Segment = Vec<Vec<u8>>;

/// A report as pieces.
pub struct Draft {
    pub separators: Separators,
    /// The profile that it keeps to.
    pub profile: Profile,
    pub segments: Vec<Segment>,
}

/// How a report's texts look.
pub struct Style {
    pub separators: Separators,
    /// Texts hold all kinds of data bytes, not just letters, digits and spaces.
    pub mixed: bool,
}

/// A level to be: HL01 to HL04.
struct Plan {
    name: Vec<u8>,
    parent: Option<usize>,
    code: &'static str,
    mark: &'static str,
}

impl Draft {
    /// A valid report of this profile.
    pub fn new(random: &mut Random, separators: Separators, profile: Profile) -> Draft {
        let style = Style { separators, mixed: random.chance(60) };
        let levels = match random.below(60) {
            0 => 20 + random.below(40),
            1..=20 => 1,
            _ => 1 + random.below(8),
        };
        let plans = match profile {
            Profile::Report => plan_levels(random, &style, levels),
            Profile::Reply => plan_replies(random, &style, levels),
        };
        let control = style.text(random, 4, 9);
        let mut draft = Draft { separators, profile, segments: Vec::new() };
        draft.walk(random, &style, &plans, &control);
        draft
    }

    /// Walks through the rows from ST to SE and writes a segment at each.
    fn walk(&mut self, random: &mut Random, style: &Style, plans: &[Plan], control: &[u8]) {
        let appetite = *random.pick(&[0, 2, 4, 8, 16, 30]);
        let mut budget = random.below(appetite + 1);
        let mut row = 0;
        let mut repeated = 0;
        let mut level = 0;
        loop {
            let tags = open_tags(self.profile, row, repeated, level < plans.len());
            let tag = choose(random, &tags, budget);
            let next = usize::from(NEXT[row][tag as usize]);
            repeated = if next == row { repeated + 1 } else { 1 };
            row = next;
            budget = budget.saturating_sub(1);
            let segment = match tag {
                Tag::ST => pieces(&[b"ST", b"842", control]),
                Tag::SE => pieces(&[b"SE", &style.count(random, self.segments.len() + 1), control]),
                Tag::HL => hl(plans, level),
                _ => style.segment(random, tag),
            };
            self.segments.push(segment);
            if tag == Tag::HL {
                level += 1;
                budget = random.below(appetite + 1);
            }
            if tag == Tag::SE {
                return;
            }
        }
    }

    /// How many segments and levels there are.
    pub fn needed(&self) -> (usize, usize) {
        let levels = self.segments.iter().filter(|segment| segment[0] == b"HL").count();
        (self.segments.len(), levels)
    }

    /// The bytes of the whole report with these line ends.
    pub fn bytes(&self, lines: &Lines) -> Vec<u8> {
        let mut bytes = Vec::new();
        for (at, segment) in self.segments.iter().enumerate() {
            bytes.extend(segment.join(&self.separators.element));
            bytes.push(self.separators.terminator);
            bytes.extend(lines.behind(at));
        }
        bytes
    }
}

/// The tags that may come next in the profile. HL only while levels are left, SE only when none is.
fn open_tags(profile: Profile, row: usize, repeated: usize, levels_left: bool) -> Vec<Tag> {
    let open = |tag: Tag| {
        let next = usize::from(NEXT[row][tag as usize]);
        let full = next == row && MOST[row] == 2 && repeated == 2;
        let due = match tag {
            Tag::HL => levels_left,
            Tag::SE => !levels_left,
            _ => true,
        };
        profile.has(next) && !full && due
    };
    TAGS.iter().map(|(tag, _)| *tag).filter(|tag| open(*tag)).collect()
}

/// One of the open tags: mostly one that goes on in the loop while the budget lasts, later HL or SE
/// wherever they may come.
fn choose(random: &mut Random, tags: &[Tag], budget: usize) -> Tag {
    let leaves = |tag: &Tag| matches!(tag, Tag::HL | Tag::SE);
    let stay: Vec<Tag> = tags.iter().copied().filter(|tag| !leaves(tag)).collect();
    let leave = tags.iter().copied().find(leaves);
    match leave {
        Some(tag) if budget == 0 || stay.is_empty() => tag,
        _ => *favoured(random, &stay),
    }
}

/// NCD and NCA open the deepest loops, EFI stands before a BIN; these are taken more often.
fn favoured<'a>(random: &mut Random, tags: &'a [Tag]) -> &'a Tag {
    let deep = tags.iter().find(|tag| matches!(tag, Tag::NCD | Tag::NCA | Tag::SPS));
    let before_bin = tags.iter().find(|tag| **tag == Tag::EFI);
    match (deep, before_bin) {
        (Some(tag), _) if random.chance(20) => tag,
        (_, Some(tag)) if random.chance(15) => tag,
        _ => random.pick(tags),
    }
}

/// Plans levels that keep every rule: a tree by the permitted pairs, then the marks.
fn plan_levels(random: &mut Random, style: &Style, count: usize) -> Vec<Plan> {
    const UNDER: [(&str, &[&str]); 3] = [("RP", &["I"]), ("I", &["F", "PC", "SN"]), ("F", &["PC", "SN"])];
    let mut plans: Vec<Plan> = Vec::new();
    for _ in 0..count {
        let parents: Vec<usize> =
            (0..plans.len()).filter(|at| UNDER.iter().any(|(code, _)| *code == plans[*at].code)).collect();
        let under = (!parents.is_empty() && random.chance(80)).then(|| {
            // Late levels are taken more often, so that trees grow deep.
            let from = if random.chance(50) { parents.len().saturating_sub(2) } else { 0 };
            *random.pick(&parents[from..])
        });
        let code = match under {
            Some(parent) => {
                let (_, codes) = UNDER.iter().find(|(code, _)| *code == plans[parent].code).unwrap();
                *random.pick(codes)
            }
            None => CODES[random.below(2)],
        };
        let name = new_name(random, style, &plans);
        plans.push(Plan { name, parent: under, code, mark: "" });
    }
    for at in 0..plans.len() {
        let has_child = plans.iter().any(|plan| plan.parent == Some(at));
        plans[at].mark = *random.pick(if has_child { &["", "1", "1"] } else { &["", "0", "0"] });
    }
    plans
}

/// Plans levels of a reply, each of any of its codes.
fn plan_replies(random: &mut Random, style: &Style, count: usize) -> Vec<Plan> {
    let mut plans: Vec<Plan> = Vec::new();
    for _ in 0..count {
        let name = new_name(random, style, &plans);
        let code = *random.pick(Profile::Reply.codes());
        plans.push(Plan { name, parent: None, code, mark: "" });
    }
    plans
}

/// An HL01 that no earlier level has, often close to one.
fn new_name(random: &mut Random, style: &Style, plans: &[Plan]) -> Vec<u8> {
    loop {
        let name = match random.below(5) {
            0 => style.text(random, 1, 12),
            1 if !plans.is_empty() => {
                let mut name = random.pick(plans).name.clone();
                name.push(*random.pick(b"0123 AB"));
                name
            }
            2 => random.below(30).to_string().into_bytes(),
            _ => (plans.len() + 1).to_string().into_bytes(),
        };
        if name.len() <= 12 && plans.iter().all(|plan| plan.name != name) {
            return name;
        }
    }
}

/// The HL of a planned level.
fn hl(plans: &[Plan], at: usize) -> Segment {
    let plan = &plans[at];
    let parent = plan.parent.map_or(&b""[..], |parent| &plans[parent].name);
    trimmed(pieces(&[b"HL", &plan.name, parent, plan.code.as_bytes(), plan.mark.as_bytes()]))
}

/// Pieces of one's own.
fn pieces(texts: &[&[u8]]) -> Segment {
    texts.iter().map(|text| text.to_vec()).collect()
}

/// Without empty elements at the end.
fn trimmed(mut segment: Segment) -> Segment {
    while segment.len() > 1 && segment.last().is_some_and(Vec::is_empty) {
        segment.pop();
    }
    segment
}

const CAPITALS: &[u8] = b"ABCDEFGHIJKLMNOPQRSTUVWXYZ0123456789";

impl Style {
    /// A length between two bounds; the bounds themselves come often.
    fn length(&self, random: &mut Random, least: usize, most: usize) -> usize {
        match random.below(6) {
            0 => least,
            1 => most,
            _ => least + random.below((most - least).min(8) + 1),
        }
    }

    /// A text of type AN.
    pub fn text(&self, random: &mut Random, least: usize, most: usize) -> Vec<u8> {
        let length = self.length(random, least, most);
        (0..length).map(|_| self.data_byte(random)).collect()
    }

    fn data_byte(&self, random: &mut Random) -> u8 {
        loop {
            let byte = match random.below(8) {
                0 if self.mixed => 32 + random.below(95) as u8,
                1 => *random.pick(b" .-abcxyz"),
                _ => *random.pick(CAPITALS),
            };
            if !self.separators.holds(byte) {
                return byte;
            }
        }
    }

    /// A text of type ID.
    pub fn code(&self, random: &mut Random, least: usize, most: usize) -> Vec<u8> {
        let length = self.length(random, least, most);
        (0..length).map(|_| *random.pick(CAPITALS)).collect()
    }

    /// A number of type R with at most so many digits.
    fn decimal(&self, random: &mut Random, most: usize) -> Vec<u8> {
        let digits = self.length(random, 1, most);
        numbers::with_digits(random, digits)
    }

    /// A date.
    fn date(&self, random: &mut Random) -> Vec<u8> {
        const ENDS: [&str; 6] = ["0131", "0228", "0430", "1231", "0630", "0101"];
        let any = random.below(10000);
        let year = *random.pick(&[0, 1900, 2000, 2023, 2024, 9999, any]);
        if random.chance(10) {
            return format!("{:04}0229", year / 400 * 400).into_bytes();
        }
        if random.chance(40) {
            return format!("{year:04}{}", random.pick(&ENDS)).into_bytes();
        }
        format!("{year:04}{:02}{:02}", 1 + random.below(12), 1 + random.below(28)).into_bytes()
    }

    /// A time.
    fn time(&self, random: &mut Random) -> Vec<u8> {
        let all = format!(
            "{:02}{:02}{:02}{:02}",
            random.below(24),
            random.below(60),
            random.below(60),
            random.below(100)
        );
        let length = *random.pick(&[4, 6, 7, 8]);
        all.as_bytes()[..length].to_vec()
    }

    /// SE01, now and then with leading zeros.
    fn count(&self, random: &mut Random, count: usize) -> Vec<u8> {
        let width = if random.chance(20) { random.below(11) } else { 0 };
        format!("{count:0width$}").into_bytes()
    }

    /// A segment other than ST, HL and SE.
    pub fn segment(&self, random: &mut Random, tag: Tag) -> Segment {
        let mut segment = pieces(&[format!("{tag:?}").as_bytes()]);
        segment.extend(match tag {
            Tag::N1 => self.n1(random),
            Tag::DTM => self.dtm(random),
            Tag::LIN => self.lin(random),
            Tag::NTE => self.nte(random),
            Tag::NCA => self.nca(random),
            Tag::BIN => attached::elements(random, self.separators),
            _ => self.plain(random),
        });
        trimmed(segment)
    }

    fn maybe(&self, random: &mut Random, text: Vec<u8>) -> Vec<u8> {
        if random.chance(50) {
            text
        } else {
            Vec::new()
        }
    }

    /// R0203, P0304.
    fn n1(&self, random: &mut Random) -> Segment {
        let name = self.text(random, 1, 60);
        let (kind, number) = (self.code(random, 1, 2), self.text(random, 2, 80));
        let (name, kind, number) = match random.below(3) {
            0 => (name, Vec::new(), Vec::new()),
            1 => (Vec::new(), kind, number),
            _ => (name, kind, number),
        };
        let five = self.code(random, 2, 2);
        let six = self.code(random, 2, 3);
        vec![self.code(random, 2, 3), name, kind, number, self.maybe(random, five), self.maybe(random, six)]
    }

    /// R020305, C0403, P0506.
    fn dtm(&self, random: &mut Random) -> Segment {
        let with = 1 + random.below(7);
        let when = |bit: usize, text: Vec<u8>| if with & bit != 0 { text } else { Vec::new() };
        let date = self.date(random);
        let time = self.time(random);
        let zone = self.code(random, 2, 2);
        let zone = self.maybe(random, zone);
        let (form, period) = (self.code(random, 2, 3), self.text(random, 1, 35));
        vec![
            self.code(random, 3, 3),
            when(1, date),
            when(2, time),
            when(2, zone),
            when(4, form),
            when(4, period),
        ]
    }

    fn lin(&self, random: &mut Random) -> Segment {
        let first = self.text(random, 1, 20);
        let mut elements = vec![self.maybe(random, first)];
        let pairs = *random.pick(&[1, 1, 2, 3, 15]);
        for pair in 0..pairs {
            if pair == 0 || random.chance(80) {
                elements.extend([self.code(random, 2, 2), self.text(random, 1, 48)]);
            } else {
                elements.extend([Vec::new(), Vec::new()]);
            }
        }
        elements
    }

    fn nte(&self, random: &mut Random) -> Segment {
        let kind = self.code(random, 3, 3);
        vec![self.maybe(random, kind), self.text(random, 1, 80)]
    }

    /// R0203, P0405.
    fn nca(&self, random: &mut Random) -> Segment {
        let first = self.text(random, 1, 20);
        let with = 1 + random.below(3);
        let when = |bit: usize, text: Vec<u8>| if with & bit != 0 { text } else { Vec::new() };
        let (two, three) = (self.code(random, 1, 2), self.text(random, 1, 80));
        let mut elements = vec![self.maybe(random, first), when(1, two), when(2, three)];
        if random.chance(60) {
            elements.extend([self.decimal(random, 15), self.composite(random)]);
        }
        elements
    }

    fn composite(&self, random: &mut Random) -> Vec<u8> {
        let count = *random.pick(&[1, 2, 3, 4, 6, 7, 14, 15]);
        let mut components: Segment = vec![self.code(random, 2, 2)];
        for at in 1..count {
            let part = match at % 3 {
                0 => self.code(random, 2, 2),
                1 => self.decimal(random, 15),
                _ => self.decimal(random, 10),
            };
            let left_out = at + 1 < count && random.chance(30);
            components.push(if left_out { Vec::new() } else { part });
        }
        components.join(&self.separators.component)
    }

    /// Any number of elements and components.
    fn plain(&self, random: &mut Random) -> Segment {
        let count = if random.chance(3) { 30 + random.below(50) } else { 1 + random.below(5) };
        let mut elements: Segment = Vec::new();
        for _ in 0..count {
            let mut element = self.text(random, 1, 10);
            if random.chance(15) {
                let parts: Vec<Vec<u8>> = (0..random.below(4)).map(|_| self.text(random, 0, 4)).collect();
                element = [parts, vec![element]].concat().join(&self.separators.component);
            }
            elements.push(if random.chance(15) { Vec::new() } else { element });
        }
        if elements.last().is_some_and(Vec::is_empty) {
            elements.push(b"X".to_vec());
        }
        elements
    }
}
