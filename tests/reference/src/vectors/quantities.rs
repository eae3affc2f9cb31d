//! Reports with numbers of every form in NCA04 and in the components of NCA05 (document 02, Item 6).

use super::case::{Case, Told};
use super::numbers::{FIT, UNFIT};
use super::text::{accepted, closed, enough, in_fault, in_level, joined, refused, start_of, written_with};
use crate::Separators;

/// The components of NCA05 that are numbers of at most fifteen digits, and of at most ten.
const OF_FIFTEEN: [usize; 5] = [2, 5, 8, 11, 14];
const OF_TEN: [usize; 5] = [3, 6, 9, 12, 15];

/// Numbers that fit with at most ten digits, however long their texts are.
const SHORT: [&str; 6] = ["-0.50", "5E-07", ".5E1", "9876543210", "-98765.43210E-99", "0000000000E99"];

/// Numbers of eleven to fifteen digits.
const LONG: [&str; 5] =
    ["12345678901", "-1.2345678901", "00000000005E1", "-.123456789012345E-99", "999999999999999"];

/// Texts that fit nowhere.
const NOWHERE: [&str; 8] = ["E5", "5E", "5e1", "5E123", "5E1E1", "5E1-", "+1", "1234567890123456"];

pub fn cases() -> Vec<Told> {
    [elements(), components(), alone(), together(), other_rules(), other_separators()].concat()
}

/// A report that has this NCA alone behind its NCD, with the answer 10 at this element, or accepted.
fn told(nca: &str, unfit: Option<u64>) -> Told {
    let text = in_fault(&[nca]);
    match unfit {
        Some(element) => refused(text, 10, 5, element),
        None => accepted(text, 6, 1),
    }
}

/// Every number and every text that is none in NCA04. An empty one is absent.
fn elements() -> Vec<Told> {
    let element = |text: &str, unfit| told(&format!("NCA**R1**{text}*EA"), unfit);
    let fit = FIT.iter().map(|(text, _)| element(text, None));
    let unfit = UNFIT.iter().filter(|text| !text.is_empty()).map(|text| element(text, Some(4)));
    fit.chain(unfit).collect()
}

/// NCA05 with all its components, and this text as the one at this place.
fn composite(place: usize, text: &str) -> String {
    let mut components = ["EA", "1", "2"].repeat(5);
    components[place - 1] = text;
    components.join(":")
}

/// Numbers, and texts that are none, at every place of NCA05 that has a number.
fn components() -> Vec<Told> {
    let mut cases = Vec::new();
    for (places, texts, unfit) in [
        (OF_FIFTEEN, &SHORT[..], None),
        (OF_FIFTEEN, &LONG[..], None),
        (OF_FIFTEEN, &NOWHERE[..], Some(5)),
        (OF_TEN, &SHORT[..], None),
        (OF_TEN, &LONG[..], Some(5)),
        (OF_TEN, &NOWHERE[..], Some(5)),
    ] {
        for place in places {
            for text in texts {
                cases.push(told(&format!("NCA**R1**5*{}", composite(place, text)), unfit));
            }
        }
    }
    cases
}

/// Numbers at every place of NCA05 with nothing but the first component before them.
fn alone() -> Vec<Told> {
    let nca = |place: usize, text: &str| format!("NCA**R1**5E1*EA{}{text}", ":".repeat(place - 1));
    let mut cases = Vec::new();
    for place in OF_FIFTEEN.into_iter().chain(OF_TEN) {
        cases.push(told(&nca(place, "-5.E-1"), None));
        cases.push(told(&nca(place, "-5.E-"), Some(5)));
    }
    cases
}

/// Several numbers in one segment and in one report: the first that is unfit is told of.
fn together() -> Vec<Told> {
    let fifteen = "EA:5E1:-.5E-1:KG:-0:0.0E0:LB:999999999999999E99:9999999999E-99:FT:00.5:5.:IN:1E-1:-1E1";
    let many =
        |last: &str| in_level(&["NCD*1", "NCA**R1**5E1*EA", "NCD*2", "NCA**R2**-.5*EA:5E-1", "NCD*3", last]);
    vec![
        told(&format!("NCA**R1**-1.5E12*{fifteen}"), None),
        told(&format!("NCA**R1**-1.5E12*{fifteen}E"), Some(5)),
        told(&format!("NCA**R1**-1.5E123*{fifteen}"), Some(4)),
        told("NCA**R1**5E*EA:5E", Some(4)),
        told("NCA**R1**5E1*EA:5E:5E", Some(5)),
        told("NCA*5E1E1*R1*5E1E1*5E1*EA", None),
        accepted(many("NCA**R3**5E0*EA::0E-0"), 10, 1),
        refused(many("NCA**R3**5E0*EA::0E-"), 10, 9, 5),
        refused(many("NCA**R3**5E-*EA::0E-0"), 10, 9, 4),
    ]
}

/// Other rules: what comes before 10 and behind it, and types that have no exponent or need none.
fn other_rules() -> Vec<Told> {
    let sixteen = format!("EA{}5E", ":".repeat(15));
    vec![
        refused(in_fault(&[&format!("NCA**R1**5E*{sixteen}")]), 9, 5, 5),
        refused(in_fault(&["NCA**R1**5E*EA*X"]), 9, 5, 6),
        refused(in_fault(&["NCA**R1**5E*:5E"]), 8, 5, 5),
        refused(in_fault(&["NCA**R1**5E1*EA:5E1:"]), 6, 5, 5),
        refused(in_fault(&["NCA**R1**5E1:*EA"]), 6, 5, 4),
        refused(in_fault(&["NCA**R1**5:E1*EA"]), 10, 5, 4),
        refused(in_fault(&["NCA**R1**5E"]), 10, 5, 4),
        refused(in_fault(&["NCA**R1**5E1"]), 11, 5, 4),
        refused(in_fault(&["NCA**R1***EA:5E1"]), 11, 5, 4),
        refused(in_fault(&["NCA****5E1*EA:5E1"]), 11, 5, 2),
        told("NCA**5E**5E1*E5:5E1:5E1:5E", None),
        told("NCA**R1**5E1*EA:5E1:5E1:5E1", Some(5)),
        accepted(in_fault(&["QTY*01*5E1E1"]), 6, 1),
        refused(joined(&["ST*842*0001", "BNR*1", "HL*1**I", "SE*4E0*0001"]), 10, 4, 1),
        refused(joined(&["ST*842*0001", "BNR*1", "HL*1**I", "SE*4.*0001"]), 10, 4, 1),
    ]
}

/// The same in other separators, `+` among them.
fn other_separators() -> Vec<Told> {
    let sets = [
        Separators::new(1, 2, 3),
        Separators::new(b'+', b':', b'\''),
        Separators::new(b'|', b'+', b'\n'),
        Separators::new(b'/', b',', b'_'),
    ];
    let mut cases = Vec::new();
    for set in sets {
        for (nca, unfit) in [
            ("NCA**R1**-.5E-07*EA:5.E1:-0.50:KG:5E-0:0E99", None),
            ("NCA**R1**5E-*EA:5.E1", Some(4)),
            ("NCA**R1**5e1*EA:5.E1", Some(4)),
            ("NCA**R1**5*EA:5E1:5E1:KG:5E1E1", Some(5)),
            ("NCA**R1**5*EA:123456789012345E1:12345678901", Some(5)),
            ("NCA**R1**5E+1", Some(4)),
        ] {
            cases.push(written(nca, unfit, set));
        }
    }
    cases
}

/// A report with this NCA, written with other separators; where it is refused, with 10.
fn written(nca: &str, unfit: Option<u64>, set: Separators) -> Told {
    let input = written_with(&closed(&["ST*842*0001", "BNR*1", "HL*1**I", "NCD*1", nca]), set);
    let answer = match unfit {
        Some(element) => [10, 5, start_of(&input, set.terminator, 5), element],
        None => [0, 6, 1, input.len() as u64],
    };
    let rooms = enough(&input, set);
    Told { case: Case::read(input, set, rooms), answer: Some(answer) }
}
