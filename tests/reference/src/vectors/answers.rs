//! Every answer of a reading, 0 to 17, with each of its elements. Answer 2 needs an input longer
//! than a file of cases may be, and is left to the unit tests.

use super::case::{Case, Told};
use super::text::{accepted, after_bnr, in_fault, in_heading, in_level, joined, reading, refused, W1};
use crate::{Separators, LEVEL_NUMBERS, SEGMENT_NUMBERS};

pub fn cases() -> Vec<Told> {
    let mut cases = vec![accepted(joined(&W1), 7, 2)];
    cases.extend(unfit_sets());
    cases.extend(no_terminator());
    cases.extend(bad_bytes());
    cases.extend([
        refused("XYZ*1~", 4, 1, 0),
        refused(in_heading(&["X*1"]), 4, 3, 0),
        refused(in_fault(&["NCB*1"]), 4, 5, 0),
    ]);
    cases.extend(empty_ends());
    cases.extend([
        refused("BNR*1~", 7, 1, 0),
        refused(in_heading(&["LIN**BP*A"]), 7, 3, 0),
        refused(in_level(&["NCA**R1"]), 7, 4, 0),
    ]);
    cases.extend(too_many());
    cases.extend(missing());
    cases.extend(unfit_elements());
    cases.extend(broken_notes());
    cases.extend(level_faults());
    cases.extend(closing_faults());
    cases.extend(no_room());
    cases
}

fn unfit_sets() -> Vec<Told> {
    let input = joined(&W1).into_bytes();
    let separators = Separators::new(b'*', b'*', b'~');
    let case = Case::read(input, separators, (SEGMENT_NUMBERS * 7 + 2, 11));
    vec![Told { case, answer: Some([1, 0, 0, 0]) }]
}

fn no_terminator() -> Vec<Told> {
    (0..W1.len())
        .map(|whole| {
            let text = joined(&W1[..whole]) + W1[whole];
            refused(text, 3, whole as u64 + 1, 0)
        })
        .collect()
}

fn bad_bytes() -> Vec<Told> {
    let mut cases = Vec::new();
    for element in 0..=5 {
        let mut pieces = ["REF", "A", "B", "C", "D", "E"].map(String::from);
        pieces[element].push('\x02');
        cases.push(refused(in_heading(&[&pieces.join("*")]), 5, 3, element as u64));
    }
    cases
}

fn empty_ends() -> Vec<Told> {
    let mut cases = vec![refused(in_heading(&["REF"]), 6, 3, 0)];
    for element in 1..=5 {
        let mut pieces = ["REF", "A", "B", "C", "D", "E"].map(String::from);
        pieces[element].push(':');
        cases.push(refused(in_heading(&[&pieces.join("*")]), 6, 3, element as u64));
        pieces[element].clear();
        cases.push(refused(in_heading(&[&pieces[..=element].join("*")]), 6, 3, element as u64));
    }
    cases
}

fn too_many() -> Vec<Told> {
    vec![
        refused("ST*842*0001*X~", 9, 1, 3),
        refused(in_heading(&["N1*SU*A*92*A17*XX*YY*Z"]), 9, 3, 7),
        refused(in_heading(&["DTM*002*20240301*1530*ES*RD8*PERIOD*Z"]), 9, 3, 7),
        refused(after_bnr(&["HL*1**RP*0*Z"]), 9, 3, 5),
        refused(in_level(&[&format!("LIN*1{}*Z", "*BP*A".repeat(15))]), 9, 4, 32),
        refused(in_fault(&["NTE*GEN*A*Z"]), 9, 5, 3),
        refused(in_fault(&["NCA*1*R1*A*5*EA*Z"]), 9, 5, 6),
        refused(in_fault(&["NCA*1*R1*A*5*EA:::::::::::::::9"]), 9, 5, 5),
        refused(joined(&["ST*842*0001", "BNR*1", "HL*1**I", "SE*4*0001*Z"]), 9, 4, 3),
    ]
}

fn missing() -> Vec<Told> {
    let closing = |se: &str| joined(&["ST*842*0001", "BNR*1", "HL*1**I", se]);
    vec![
        refused("ST**0001~", 8, 1, 1),
        refused("ST*842~", 8, 1, 2),
        refused(in_heading(&["N1**A"]), 8, 3, 1),
        refused(in_heading(&["DTM**20240301"]), 8, 3, 1),
        refused(after_bnr(&["HL***RP"]), 8, 3, 1),
        refused(after_bnr(&["HL*1"]), 8, 3, 3),
        refused(after_bnr(&["HL*1***0"]), 8, 3, 3),
        refused(in_level(&["LIN*1**A"]), 8, 4, 2),
        refused(in_level(&["LIN*1*BP"]), 8, 4, 3),
        refused(in_level(&["LIN*1"]), 8, 4, 2),
        refused(in_fault(&["NTE*GEN"]), 8, 5, 2),
        refused(in_fault(&["NCA**R1**5*:1"]), 8, 5, 5),
        refused(closing("SE**0001"), 8, 4, 1),
        refused(closing("SE*4"), 8, 4, 2),
    ]
}

/// One unfit element of each place, all others fit.
fn unfit_elements() -> Vec<Told> {
    let mut cases = Vec::new();
    let spoil = |text: &str, element: usize, with: &str| {
        let mut pieces: Vec<&str> = text.split('*').collect();
        pieces[element] = with;
        pieces.join("*")
    };
    for (element, with) in [(1, "8420"), (2, "001")] {
        cases.push(refused(joined(&[spoil("ST*842*0001", element, with)]), 10, 1, element as u64));
    }
    let long = "X".repeat(81);
    for element in 1..=6 {
        let text = spoil("N1*SU*A*92*A17*XX*YY", element, &long);
        cases.push(refused(in_heading(&[&text]), 10, 3, element as u64));
        let text = spoil("DTM*002*20240301*1530*ES*RD8*PERIOD", element, &long);
        cases.push(refused(in_heading(&[&text]), 10, 3, element as u64));
    }
    for element in 1..=4 {
        let text = spoil("HL*1*1*RP*0", element, &long);
        cases.push(refused(after_bnr(&[&text]), 10, 3, element as u64));
    }
    for element in 1..=31 {
        let text = spoil(&format!("LIN*1{}", "*BP*A".repeat(15)), element, &long);
        cases.push(refused(in_level(&[&text]), 10, 4, element as u64));
    }
    for element in 1..=2 {
        let text = spoil("NTE*GEN*A", element, &long);
        cases.push(refused(in_fault(&[&text]), 10, 5, element as u64));
    }
    for element in 1..=5 {
        let text = spoil("NCA*1*R1*A*5*EA", element, &long);
        cases.push(refused(in_fault(&[&text]), 10, 5, element as u64));
    }
    for element in 1..=2 {
        let text = spoil("SE*4*0001", element, &long);
        let text = joined(&["ST*842*0001", "BNR*1", "HL*1**I", &text]);
        cases.push(refused(text, 10, 4, element as u64));
    }
    cases
}

fn broken_notes() -> Vec<Told> {
    let mut cases = vec![
        refused(in_heading(&["N1*SU"]), 11, 3, 2),
        refused(in_heading(&["N1*SU*A*92"]), 11, 3, 3),
        refused(in_heading(&["DTM*002"]), 11, 3, 2),
        refused(in_heading(&["DTM*002*20240301**ES"]), 11, 3, 4),
        refused(in_heading(&["DTM*002*20240301***RD8"]), 11, 3, 5),
        refused(in_fault(&["NCA*1"]), 11, 5, 2),
        refused(in_fault(&["NCA**R1**5"]), 11, 5, 4),
    ];
    for first in (4..=30).step_by(2) {
        for left_out in [first, first + 1] {
            let mut pieces = vec!["LIN", "1"];
            pieces.extend(["BP", "A"].repeat(15));
            pieces[left_out] = "";
            let last = if left_out == 31 { 30 } else { 31 };
            cases.push(refused(in_level(&[&pieces[..=last].join("*")]), 11, 4, first as u64));
        }
    }
    cases
}

fn level_faults() -> Vec<Told> {
    vec![
        refused(after_bnr(&["HL*1**RP", "HL*1*1*I"]), 12, 4, 1),
        refused(after_bnr(&["HL*1**RP", "HL*2*3*I"]), 13, 4, 2),
        refused(after_bnr(&["HL*1**RB"]), 14, 3, 3),
        refused(after_bnr(&["HL*1**SN"]), 14, 3, 3),
        refused(after_bnr(&["HL*1**RP", "HL*2*1*F"]), 14, 4, 2),
        refused(after_bnr(&["HL*1**RP*0", "HL*2*1*I"]), 15, 4, 2),
        refused(after_bnr(&["HL*1**RP*2"]), 15, 3, 4),
        refused(after_bnr(&["HL*1**I", "HL*2*1*PC*1"]), 15, 4, 4),
        refused(after_bnr(&["HL*1**RP*1"]), 15, 4, 0),
    ]
}

fn closing_faults() -> Vec<Told> {
    let closing = |se: &str| joined(&["ST*842*0001", "BNR*1", "HL*1**I", se]);
    vec![refused(closing("SE*3*0001"), 16, 4, 1), refused(closing("SE*4*0002"), 16, 4, 2)]
}

/// No room for each of W1's segments in turn, then for each of its levels.
fn no_room() -> Vec<Told> {
    let mut cases = Vec::new();
    let starts = [0, 12, 32, 43, 54, 60, 68];
    for (whole, start) in starts.iter().enumerate() {
        let mut case = reading(joined(&W1).as_bytes());
        if let Case::Read { rooms, .. } = &mut case {
            *rooms = (SEGMENT_NUMBERS * (whole + 1) - 1, 9);
        }
        cases.push(Told { case, answer: Some([17, whole as u64 + 1, *start, 0]) });
    }
    for (whole, segment, start) in [(0, 3, 32), (1, 4, 43)] {
        let mut case = reading(joined(&W1).as_bytes());
        if let Case::Read { rooms, .. } = &mut case {
            *rooms = (SEGMENT_NUMBERS * 7 + 2, LEVEL_NUMBERS * (whole + 1) - 1);
        }
        cases.push(Told { case, answer: Some([17, segment, start, 0]) });
    }
    cases
}
