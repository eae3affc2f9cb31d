//! The element rules as the paper prints them, and the tests 9, 8, 10 and 11.

use super::number::number_plain;
use super::profile::absent_in_hl;
use super::Fault;
use crate::Profile;

/// The rules that the paper prints element by element.
const PAPER: [&str; 6] = [
    "ST: 1 ID 3/3 mandatory, equal to `842`; 2 AN 4/9 mandatory.",
    "N1: 1 ID 2/3 mandatory; 2 AN 1/60; 3 ID 1/2; 4 AN 2/80; 5 ID 2/2; 6 ID 2/3. R0203, P0304.",
    "DTM: 1 ID 3/3 mandatory; 2 DT 8/8; 3 TM 4/8; 4 ID 2/2; 5 ID 2/3; 6 AN 1/35. R020305, C0403, P0506.",
    "HL: 1 AN 1/12 mandatory; 2 AN 1/12; 3 ID 1/2 mandatory; 4 ID 1/1.",
    "NTE: 1 ID 3/3; 2 AN 1/80 mandatory.",
    "SE: 1 N0 1/10 mandatory; 2 AN 4/9 mandatory.",
];

/// The types.
#[derive(Clone, Debug, PartialEq, Eq)]
pub enum Kind {
    /// Any data byte.
    AN,
    /// `A`-`Z` and `0`-`9`.
    ID,
    /// Digits.
    N0,
    /// A decimal number, with an exponent or without.
    R,
    /// A date.
    DT,
    /// A time.
    TM,
    /// Components, each with a rule of its own.
    Composite(Vec<Rule>),
}

/// The rule of an element or a component.
#[derive(Clone, Debug, PartialEq, Eq)]
pub struct Rule {
    /// Its type.
    pub kind: Kind,
    /// Its least length.
    pub least: usize,
    /// Its greatest length.
    pub most: usize,
    /// Whether it must be there.
    pub mandatory: bool,
    /// The text it must be equal to, if any.
    pub equal: Option<String>,
}

/// A note: its letter, and the elements it names in the order printed.
#[derive(Clone, Debug, PartialEq, Eq)]
pub struct Note {
    /// P, R or C.
    pub letter: char,
    /// The elements.
    pub names: Vec<usize>,
}

/// The rules of one segment.
#[derive(Clone, Debug, PartialEq, Eq)]
pub struct Rules {
    /// The tag.
    pub tag: String,
    /// The elements' rules, element 1 first.
    pub elements: Vec<Rule>,
    /// Those that may not be there, although they have a rule.
    pub absent: Vec<usize>,
    /// The notes in the order printed.
    pub notes: Vec<Note>,
}

/// A piece of a segment with its components. An empty piece has one empty component here.
pub struct Piece {
    pub text: Vec<u8>,
    pub components: Vec<Vec<u8>>,
}

impl Piece {
    pub fn cut(text: &[u8], component: u8) -> Piece {
        Piece {
            text: text.to_vec(),
            components: text.split(|byte| *byte == component).map(<[u8]>::to_vec).collect(),
        }
    }

    /// A piece of one component, whatever its bytes are.
    pub fn whole(text: &[u8]) -> Piece {
        Piece { text: text.to_vec(), components: vec![text.to_vec()] }
    }
}

/// The rules of the eight ruled segments in a profile.
pub fn rules(profile: Profile) -> Vec<Rules> {
    let mut all: Vec<Rules> = PAPER.iter().map(|line| parse(line)).collect();
    all.push(lin());
    all.push(nca());
    for hl in all.iter_mut().filter(|rules| rules.tag == "HL") {
        hl.absent = absent_in_hl(profile);
    }
    all
}

/// Reads a line of the paper.
fn parse(line: &str) -> Rules {
    let (tag, body) = line.split_once(": ").expect("a tag");
    let (elements, notes) = body.split_once('.').expect("a full stop");
    Rules {
        tag: tag.to_string(),
        elements: elements.split("; ").map(numbered_rule).collect(),
        absent: Vec::new(),
        notes: notes.split([',', '.', ' ']).filter(|note| !note.is_empty()).map(note).collect(),
    }
}

/// Reads `1 ID 3/3 mandatory, equal to ..`.
fn numbered_rule(text: &str) -> Rule {
    let (_, text) = text.split_once(' ').expect("a number");
    rule(text)
}

/// Reads `ID 3/3 mandatory, equal to ..`.
fn rule(text: &str) -> Rule {
    let mut words = text.split([' ', ',']);
    let kind = match words.next() {
        Some("AN") => Kind::AN,
        Some("ID") => Kind::ID,
        Some("N0") => Kind::N0,
        Some("R") => Kind::R,
        Some("DT") => Kind::DT,
        Some("TM") => Kind::TM,
        other => panic!("no type: {other:?}"),
    };
    let (least, most) = words.next().and_then(|bounds| bounds.split_once('/')).expect("two lengths");
    Rule {
        kind,
        least: least.parse().expect("a length"),
        most: most.parse().expect("a length"),
        mandatory: text.contains("mandatory"),
        equal: text.split('`').nth(1).map(str::to_string),
    }
}

/// Reads `R020305`.
fn note(text: &str) -> Note {
    let names = text.as_bytes()[1..]
        .chunks(2)
        .map(|two| std::str::from_utf8(two).unwrap().parse().expect("an element number"))
        .collect();
    Note { letter: text.chars().next().unwrap(), names }
}

/// LIN: 1 AN 1/20; then fifteen pairs, ID 2/2 and AN 1/48, up to element 31; 2 and 3 mandatory.
/// P0405, P0607, .. P3031.
fn lin() -> Rules {
    let mut elements = vec![rule("AN 1/20")];
    for _ in 0..15 {
        elements.push(rule("ID 2/2"));
        elements.push(rule("AN 1/48"));
    }
    elements[2 - 1].mandatory = true;
    elements[3 - 1].mandatory = true;
    let notes = (4..=30).step_by(2).map(|first| note(&format!("P{first:02}{:02}", first + 1))).collect();
    Rules { tag: "LIN".to_string(), elements, absent: Vec::new(), notes }
}

/// NCA: 1 AN 1/20; 2 ID 1/2; 3 AN 1/80; 4 R 1/15; 5 composite of up to fifteen components: five
/// times ID 2/2, R 1/15, R 1/10, the first mandatory. R0203, P0405.
fn nca() -> Rules {
    let mut components = Vec::new();
    for _ in 0..5 {
        components.extend([rule("ID 2/2"), rule("R 1/15"), rule("R 1/10")]);
    }
    components[0].mandatory = true;
    let composite =
        Rule { kind: Kind::Composite(components), least: 0, most: 0, mandatory: false, equal: None };
    Rules {
        tag: "NCA".to_string(),
        elements: vec![rule("AN 1/20"), rule("ID 1/2"), rule("AN 1/80"), rule("R 1/15"), composite],
        absent: Vec::new(),
        notes: vec![note("R0203"), note("P0405")],
    }
}

impl Rules {
    /// Tests the pieces of a segment in the order 9, 8, 10, 11.
    pub(super) fn check(&self, pieces: &[Piece], component: u8) -> Result<(), Fault> {
        self.too_many(pieces)?;
        self.missing(pieces)?;
        self.unfit(pieces, component)?;
        self.broken(pieces)
    }

    /// 9: too many elements or components; the first such. One that may not be there is one too many.
    fn too_many(&self, pieces: &[Piece]) -> Result<(), Fault> {
        for (number, piece) in pieces.iter().enumerate().skip(1) {
            let Some(rule) = self.elements.get(number - 1) else {
                return Err((9, number));
            };
            if self.absent.contains(&number) && present(pieces, number) {
                return Err((9, number));
            }
            if matches!(&rule.kind, Kind::Composite(rules) if piece.components.len() > rules.len()) {
                return Err((9, number));
            }
        }
        Ok(())
    }

    /// 8: a mandatory one missing; the first such. A component's rule holds where the element is there.
    fn missing(&self, pieces: &[Piece]) -> Result<(), Fault> {
        for (at, rule) in self.elements.iter().enumerate() {
            let number = at + 1;
            if rule.mandatory && !present(pieces, number) {
                return Err((8, number));
            }
            if let (Kind::Composite(rules), true) = (&rule.kind, present(pieces, number)) {
                let components = &pieces[number].components;
                let gone = |place: usize| components.get(place).is_none_or(Vec::is_empty);
                if (0..rules.len()).any(|place| rules[place].mandatory && gone(place)) {
                    return Err((8, number));
                }
            }
        }
        Ok(())
    }

    /// 10: type or length unfit, or ST01 not `842`; the first such.
    fn unfit(&self, pieces: &[Piece], component: u8) -> Result<(), Fault> {
        for (at, rule) in self.elements.iter().enumerate() {
            let number = at + 1;
            if present(pieces, number) && !rule.fits(&pieces[number], component) {
                return Err((10, number));
            }
        }
        Ok(())
    }

    /// 11: a note broken, the first in the order printed; the first element it names.
    fn broken(&self, pieces: &[Piece]) -> Result<(), Fault> {
        for note in &self.notes {
            let there: Vec<bool> = note.names.iter().map(|name| present(pieces, *name)).collect();
            let all = there.iter().all(|there| *there);
            let any = there.iter().any(|there| *there);
            let kept = match note.letter {
                'P' => all || !any,
                'R' => any,
                'C' => !there[0] || all,
                other => panic!("no note: {other}"),
            };
            if !kept {
                return Err((11, note.names[0]));
            }
        }
        Ok(())
    }
}

/// Whether a segment has this element and it is not empty.
fn present(pieces: &[Piece], number: usize) -> bool {
    pieces.get(number).is_some_and(|piece| !piece.text.is_empty())
}

impl Rule {
    /// Whether a piece that is there fits. Outside NCA05 there is no component separator in it.
    fn fits(&self, piece: &Piece, component: u8) -> bool {
        if let Kind::Composite(rules) = &self.kind {
            let mut pairs = piece.components.iter().zip(rules);
            return pairs.all(|(text, rule)| text.is_empty() || rule.fits_text(text));
        }
        !piece.text.contains(&component)
            && self.fits_text(&piece.text)
            && self.equal.as_ref().is_none_or(|text| text.as_bytes() == piece.text)
    }

    /// Whether a text fits type and length.
    fn fits_text(&self, text: &[u8]) -> bool {
        let bounds = self.least..=self.most;
        let digits = |text: &[u8]| text.iter().all(|byte| b"0123456789".contains(byte));
        match self.kind {
            Kind::AN => bounds.contains(&text.len()),
            Kind::ID => {
                let known = b"ABCDEFGHIJKLMNOPQRSTUVWXYZ0123456789";
                bounds.contains(&text.len()) && text.iter().all(|byte| known.contains(byte))
            }
            Kind::N0 => bounds.contains(&text.len()) && digits(text),
            Kind::R => number_plain(text, self.least, self.most).fit,
            Kind::DT => bounds.contains(&text.len()) && digits(text) && real_date(text),
            Kind::TM => {
                matches!(text.len(), 4 | 6 | 7 | 8)
                    && digits(text)
                    && &text[0..2] <= b"23".as_slice()
                    && &text[2..4] <= b"59".as_slice()
                    && (text.len() == 4 || &text[4..6] <= b"59".as_slice())
            }
            Kind::Composite(_) => false,
        }
    }
}

/// A real Gregorian date, from eight digits.
fn real_date(text: &[u8]) -> bool {
    let number =
        |from: usize, to: usize| -> usize { std::str::from_utf8(&text[from..to]).unwrap().parse().unwrap() };
    let (year, month, day) = (number(0, 4), number(4, 6), number(6, 8));
    let by_4 = year % 4 == 0;
    let by_100 = year % 100 == 0;
    let by_400 = year % 400 == 0;
    let february = if by_4 && (!by_100 || by_400) { 29 } else { 28 };
    let lengths = [31, february, 31, 30, 31, 30, 31, 31, 30, 31, 30, 31];
    (1..=12).contains(&month) && (1..=lengths[month - 1]).contains(&day)
}

#[cfg(test)]
mod tests {
    use super::*;

    #[test]
    fn the_paper_is_read_as_printed() {
        let all = rules(Profile::Report);
        let count = |tag: &str| all.iter().find(|rules| rules.tag == tag).map(|rules| rules.elements.len());
        assert_eq!(count("ST"), Some(2));
        assert_eq!(count("N1"), Some(6));
        assert_eq!(count("DTM"), Some(6));
        assert_eq!(count("HL"), Some(4));
        assert_eq!(count("LIN"), Some(31));
        assert_eq!(count("NTE"), Some(2));
        assert_eq!(count("NCA"), Some(5));
        assert_eq!(count("SE"), Some(2));
        assert_eq!(all[0].elements[0].equal.as_deref(), Some("842"));
        assert_eq!(all[0].elements[1].equal, None);
        let dtm = all.iter().find(|rules| rules.tag == "DTM").unwrap();
        assert_eq!(
            dtm.notes,
            [
                Note { letter: 'R', names: vec![2, 3, 5] },
                Note { letter: 'C', names: vec![4, 3] },
                Note { letter: 'P', names: vec![5, 6] },
            ]
        );
        assert_eq!(all[0].notes, []);
        let absent = |profile| rules(profile).into_iter().flat_map(|rules| rules.absent).collect::<Vec<_>>();
        assert_eq!(Profile::BOTH.map(absent), [vec![], vec![2, 4]]);
    }
}
