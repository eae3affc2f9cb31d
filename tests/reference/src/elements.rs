//! The element rules of document 01, and of document 02, Items 6 and 9: answers 9, 8, 10 and 11.

use crate::answer::Fault;
use crate::cut::{Cut, CAPITAL, COMPONENT, DIGIT};
use crate::number::{self, MOST_DIGITS};
use crate::profile::Profile;
use crate::rows::{Tag, TAG_COUNT};
use crate::types;

/// The type of an element.
#[derive(Clone, Copy, Debug, PartialEq, Eq)]
pub enum Type {
    /// Any data byte.
    AN,
    /// `A`-`Z` and `0`-`9`.
    ID,
    /// Digits.
    N0,
    /// A decimal number, with an exponent or without; only the digits before that count for length.
    R,
    /// A date.
    DT,
    /// A time.
    TM,
    /// ST01: the very text `842`.
    Is842,
    /// NCA05: components of its own.
    Composite,
}

/// The rule of one element: its type, least and most length.
#[derive(Clone, Copy, Debug)]
pub struct Element {
    /// Its type.
    pub kind: Type,
    /// Its least length.
    pub least: usize,
    /// Its greatest length.
    pub most: usize,
}

/// The letter of a note.
#[derive(Clone, Copy, Debug, PartialEq, Eq)]
pub enum Letter {
    /// All or none present.
    P,
    /// At least one.
    R,
    /// If the first is present, so are the others.
    C,
}

/// A note on which elements go together.
#[derive(Clone, Copy, Debug)]
pub struct Note {
    /// Its letter.
    pub letter: Letter,
    /// The first element it names.
    pub first: usize,
    /// A bit for each element it names.
    pub slots: u64,
}

/// All rules of one segment.
#[derive(Debug)]
pub struct Rules {
    /// The elements, the first at place 0.
    pub elements: &'static [Element],
    /// A bit for each mandatory element.
    pub mandatory: u64,
    /// A bit for each element that is one too many wherever it is present.
    pub absent: u64,
    /// The notes in the paper's order.
    pub notes: &'static [Note],
    /// The last element is a composite.
    pub composite: bool,
}

const fn element(kind: Type, least: usize, most: usize) -> Element {
    Element { kind, least, most }
}

const fn an(least: usize, most: usize) -> Element {
    element(Type::AN, least, most)
}

const fn id(least: usize, most: usize) -> Element {
    element(Type::ID, least, most)
}

/// Its lengths count digits, and no number may have more than fifteen.
const fn r(least: usize, most: usize) -> Element {
    assert!(1 <= least && most <= MOST_DIGITS);
    element(Type::R, least, most)
}

/// A bit for each of these elements.
const fn slots(elements: &[usize]) -> u64 {
    let mut bits = 0;
    let mut at = 0;
    while at < elements.len() {
        bits |= 1 << elements[at];
        at += 1;
    }
    bits
}

const fn note(letter: Letter, elements: &[usize]) -> Note {
    Note { letter, first: elements[0], slots: slots(elements) }
}

static ST: Rules = Rules {
    elements: &[element(Type::Is842, 3, 3), an(4, 9)],
    mandatory: slots(&[1, 2]),
    absent: 0,
    notes: &[],
    composite: false,
};

static N1: Rules = Rules {
    elements: &[id(2, 3), an(1, 60), id(1, 2), an(2, 80), id(2, 2), id(2, 3)],
    mandatory: slots(&[1]),
    absent: 0,
    notes: &[note(Letter::R, &[2, 3]), note(Letter::P, &[3, 4])],
    composite: false,
};

static DTM: Rules = Rules {
    elements: &[id(3, 3), element(Type::DT, 8, 8), element(Type::TM, 4, 8), id(2, 2), id(2, 3), an(1, 35)],
    mandatory: slots(&[1]),
    absent: 0,
    notes: &[note(Letter::R, &[2, 3, 5]), note(Letter::C, &[4, 3]), note(Letter::P, &[5, 6])],
    composite: false,
};

static HL_ELEMENTS: [Element; 4] = [an(1, 12), an(1, 12), id(1, 2), id(1, 1)];

static HL: Rules = hl(&[]);

/// A level of a reply names no parent and has no mark.
static REPLY_HL: Rules = hl(&[2, 4]);

/// HL, with these elements absent.
const fn hl(absent: &[usize]) -> Rules {
    Rules {
        elements: &HL_ELEMENTS,
        mandatory: slots(&[1, 3]),
        absent: slots(absent),
        notes: &[],
        composite: false,
    }
}

static LIN: Rules = Rules {
    elements: &LIN_ELEMENTS,
    mandatory: slots(&[2, 3]),
    absent: 0,
    notes: &LIN_NOTES,
    composite: false,
};

/// LIN: 1 AN 1/20, then fifteen pairs, ID 2/2 and AN 1/48.
static LIN_ELEMENTS: [Element; 31] = {
    let mut elements = [an(1, 20); 31];
    let mut pair = 0;
    while pair < 15 {
        elements[1 + 2 * pair] = id(2, 2);
        elements[2 + 2 * pair] = an(1, 48);
        pair += 1;
    }
    elements
};

/// P0405, P0607, .. P3031.
static LIN_NOTES: [Note; 14] = {
    let mut notes = [note(Letter::P, &[4, 5]); 14];
    let mut pair = 0;
    while pair < 14 {
        notes[pair] = note(Letter::P, &[4 + 2 * pair, 5 + 2 * pair]);
        pair += 1;
    }
    notes
};

static NTE: Rules = Rules {
    elements: &[id(3, 3), an(1, 80)],
    mandatory: slots(&[2]),
    absent: 0,
    notes: &[],
    composite: false,
};

static NCA: Rules = Rules {
    elements: &[an(1, 20), id(1, 2), an(1, 80), r(1, 15), element(Type::Composite, 0, 0)],
    mandatory: 0,
    absent: 0,
    notes: &[note(Letter::R, &[2, 3]), note(Letter::P, &[4, 5])],
    composite: true,
};

/// NCA05: up to fifteen components, five times these three, the first of all mandatory.
pub static NCA05: [Element; 3] = [id(2, 2), r(1, 15), r(1, 10)];

/// How many components NCA05 may have.
pub const NCA05_COMPONENTS: usize = 15;

static SE: Rules = Rules {
    elements: &[element(Type::N0, 1, 10), an(4, 9)],
    mandatory: slots(&[1, 2]),
    absent: 0,
    notes: &[],
    composite: false,
};

/// The rules of every tag; plain segments have none.
pub type AllRules = [Option<&'static Rules>; TAG_COUNT];

static REPORT_RULES: AllRules = with_hl(&HL);
static REPLY_RULES: AllRules = with_hl(&REPLY_HL);

/// The rules of a profile, which differ at HL alone.
#[inline]
pub(crate) fn rules(profile: Profile) -> &'static AllRules {
    match profile {
        Profile::Report => &REPORT_RULES,
        Profile::Reply => &REPLY_RULES,
    }
}

/// All rules, with these of HL.
const fn with_hl(hl: &'static Rules) -> AllRules {
    let mut rules: AllRules = [None; TAG_COUNT];
    rules[Tag::ST as usize] = Some(&ST);
    rules[Tag::N1 as usize] = Some(&N1);
    rules[Tag::DTM as usize] = Some(&DTM);
    rules[Tag::HL as usize] = Some(hl);
    rules[Tag::LIN as usize] = Some(&LIN);
    rules[Tag::NTE as usize] = Some(&NTE);
    rules[Tag::NCA as usize] = Some(&NCA);
    rules[Tag::SE as usize] = Some(&SE);
    rules
}

/// Tests a ruled segment against its rules, in the order 9, 8, 10, 11.
#[inline(always)]
pub(crate) fn check(rules: &Rules, cut: &Cut, input: &[u8], component: u8) -> Result<(), Fault> {
    too_many(rules, cut, input, component)?;
    missing(rules, cut, input, component)?;
    unfit(rules, cut, input, component)?;
    broken_note(rules, cut)
}

/// The bytes of the composite element, if the segment is ruled to have one and does.
#[inline]
fn composite<'a>(rules: &Rules, cut: &Cut, input: &'a [u8]) -> Option<(usize, &'a [u8])> {
    let number = rules.elements.len();
    (rules.composite && cut.has(number)).then(|| (number, cut.element(input, number)))
}

/// Answer 9: too many elements or components. An element that is to be absent stands before those past the
/// last, and no segment with one has a composite.
#[inline]
fn too_many(rules: &Rules, cut: &Cut, input: &[u8], component: u8) -> Result<(), Fault> {
    let present = cut.present & rules.absent;
    if present != 0 {
        return Err(Fault::new(9, present.trailing_zeros() as usize));
    }
    if let Some((number, bytes)) = composite(rules, cut, input) {
        if bytes.iter().filter(|byte| **byte == component).count() >= NCA05_COMPONENTS {
            return Err(Fault::new(9, number));
        }
    }
    if cut.elements > rules.elements.len() {
        return Err(Fault::new(9, rules.elements.len() + 1));
    }
    Ok(())
}

/// Answer 8: a mandatory element or component missing. The composite is the last element, so that a
/// missing first component comes after any missing element.
#[inline]
fn missing(rules: &Rules, cut: &Cut, input: &[u8], component: u8) -> Result<(), Fault> {
    let gone = rules.mandatory & !cut.present;
    if gone != 0 {
        return Err(Fault::new(8, gone.trailing_zeros() as usize));
    }
    match composite(rules, cut, input) {
        Some((number, bytes)) if bytes.first() == Some(&component) => Err(Fault::new(8, number)),
        _ => Ok(()),
    }
}

/// Answer 10: type or length unfit, or ST01 not `842`.
#[inline(always)]
fn unfit(rules: &Rules, cut: &Cut, input: &[u8], component: u8) -> Result<(), Fault> {
    for (at, rule) in rules.elements.iter().enumerate().take(cut.elements) {
        let number = at + 1;
        if cut.has(number) && !fits(rule, cut, input, number, component) {
            return Err(Fault::new(10, number));
        }
    }
    Ok(())
}

/// Whether one element that is there fits its type and length.
#[inline(always)]
fn fits(rule: &Element, cut: &Cut, input: &[u8], number: usize, component: u8) -> bool {
    let held = cut.held(number);
    let (from, to) = cut.span(number);
    let length = to - from;
    match rule.kind {
        Type::AN => held & COMPONENT == 0 && within(rule, length),
        Type::ID => held & !(DIGIT | CAPITAL) == 0 && within(rule, length),
        Type::N0 => held & !DIGIT == 0 && within(rule, length),
        Type::R if held & !DIGIT == 0 => within(rule, length),
        Type::R => number::fits(&input[from..to], rule.least, rule.most),
        Type::DT => types::date(&input[from..to]),
        Type::TM => types::time(&input[from..to]),
        Type::Is842 => input[from..to] == *b"842",
        Type::Composite => components_fit(&input[from..to], component),
    }
}

/// Whether a length is within the rule's bounds.
#[inline]
fn within(rule: &Element, length: usize) -> bool {
    rule.least <= length && length <= rule.most
}

/// Whether every component of NCA05 that is there fits its type and length.
fn components_fit(bytes: &[u8], component: u8) -> bool {
    bytes
        .split(|byte| *byte == component)
        .zip(NCA05.iter().cycle())
        .all(|(part, rule)| part.is_empty() || component_fits(rule, part))
}

/// Whether one component that is there fits its type and length.
fn component_fits(rule: &Element, bytes: &[u8]) -> bool {
    match rule.kind {
        Type::R => number::fits(bytes, rule.least, rule.most),
        _ => within(rule, bytes.len()) && bytes.iter().all(|b| b.is_ascii_uppercase() || b.is_ascii_digit()),
    }
}

/// Answer 11: the first broken note, and the first element it names.
#[inline]
fn broken_note(rules: &Rules, cut: &Cut) -> Result<(), Fault> {
    for note in rules.notes {
        let there = cut.present & note.slots;
        let kept = match note.letter {
            Letter::P => there == 0 || there == note.slots,
            Letter::R => there != 0,
            Letter::C => there & 1 << note.first == 0 || there == note.slots,
        };
        if !kept {
            return Err(Fault::new(11, note.first));
        }
    }
    Ok(())
}
