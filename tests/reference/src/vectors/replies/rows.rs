//! Rows that a reply has, rows that it has not, and what comes before 24 and behind it.

use super::{barred, taken};
use crate::vectors::case::{Case, How, Told};
use crate::vectors::text::{after_bnr, in_fault, in_heading, in_level};
use crate::{Separators, LEVEL_NUMBERS, SEGMENT_NUMBERS};

pub fn cases() -> Vec<Told> {
    [admitted(), foreign(), before(), behind(), bins(), rooms()].concat()
}

/// Every row that a reply has, alone in its loop and all together; loops that come again.
fn admitted() -> Vec<Told> {
    let level = [
        "LIN**FS*1", "DTM*405*20240301", "REF*A", "CS*A", "QTY*38*1", "LM*DF", "LQ*0*A", "NCD**5",
        "NTE*RPT*A", "DTM*009*20240301", "REF*B", "AMT*T*1", "N1*MF*A", "NCA**UC", "N1*ST*B",
    ];
    let mut cases = Vec::new();
    for segment in &level[..6] {
        let and_more: &[&str] = if *segment == "LM*DF" { &["LQ*0*A"] } else { &[] };
        let text = in_level(&[&[*segment], and_more].concat());
        cases.extend(taken(&text, 5 + and_more.len() as u64, 1));
    }
    for segment in &level[8..14] {
        cases.extend(taken(in_fault(&[segment]), 6, 1));
    }
    cases.extend(taken(in_heading(&["N1*FR*A", "PER*IC*A", "PER*IC*B", "N1*TO*A"]), 8, 1));
    cases.extend(taken(in_level(&level), 19, 1));
    cases.extend(taken(
        in_level(&["LM*DF", "LQ*0*A", "LQ*1*B", "LM*DF", "LQ*0*A", "NCD**5", "NCD**5"]),
        11,
        1,
    ));
    cases.extend(taken(in_fault(&["N1*MF*A", "N1*MF*B", "NCA**UC", "N1*ST*A", "N1*ST*B", "NCA**UC"]), 11, 1));
    cases
}

/// Every row that the list has where a reply may come to and that a reply has not.
fn foreign() -> Vec<Told> {
    let date = "DTM*002*20240301";
    let mut cases = Vec::new();
    for segment in ["REF*A", date, "PID*A", "MEA*A", "PWK*A"] {
        cases.push(barred(in_heading(&[segment]), 24, 3, 0));
    }
    for segment in ["N2*A", "N3*A", "N4*A", "REF*A"] {
        cases.push(barred(in_heading(&["N1*FR*A", segment]), 24, 4, 0));
    }
    for segment in ["PID*A", "PRS*A", "CID*A", "TMD*A", "PSD*A", "PWK*A", "MEA*A", "FA1*A", "SPS*A"] {
        cases.push(barred(in_level(&[segment]), 24, 4, 0));
    }
    for segment in ["QTY*1", "MEA*A", "RC*A", "EFI*1", "LM*A"] {
        cases.push(barred(in_fault(&[segment]), 24, 5, 0));
    }
    for segment in ["N2*A", "N3*A", "N4*A", "REF*A", "PER*A"] {
        cases.push(barred(in_fault(&["N1*MF*A", segment]), 24, 6, 0));
        cases.push(barred(in_fault(&["NCA**UC", "N1*ST*A", segment]), 24, 7, 0));
    }
    for segment in ["NTE*GEN*A", date, "REF*A", "PWK*A", "LM*DF"] {
        cases.push(barred(in_fault(&["NCA**UC", segment]), 24, 6, 0));
    }
    // Both ways to say how skip no row.
    cases.push(barred(in_heading(&["REF*A"]), 24, 3, 0).by(How::STRICT_REPLY));
    cases.push(barred(in_fault(&["NCA**UC", "LM*DF", "LQ*0*A"]), 24, 6, 0));
    cases
}

/// 3, 5, 4, 6 and 7 come before 24.
fn before() -> Vec<Told> {
    vec![
        barred("ST*842*0001~BNR*1~REF*A", 3, 3, 0),
        barred(in_heading(&["REF*\x02"]), 5, 3, 1),
        barred(in_heading(&["REX*A"]), 4, 3, 0),
        barred(in_heading(&["REF"]), 6, 3, 0),
        barred(in_heading(&["REF*"]), 6, 3, 1),
        barred(in_heading(&["REF*A*B:"]), 6, 3, 2),
        barred(in_heading(&["LIN**BP*A"]), 7, 3, 0),
        barred(in_heading(&["STA*A"]), 7, 3, 0),
        barred(in_level(&["NCA**UC"]), 7, 4, 0),
        barred(in_level(&["N2*A"]), 7, 4, 0),
        barred(in_level(&["LQ*0*A"]), 7, 4, 0),
        barred(in_level(&["LM*DF", "NCD**5"]), 7, 5, 0),
        barred(in_level(&["LM*DF", "MEA*A"]), 7, 5, 0),
        barred(in_level(&["QTY*38*1", "PID*A"]), 7, 5, 0),
        barred(in_fault(&["TMD*A"]), 7, 5, 0),
        barred("SE*1*0001~", 7, 1, 0),
    ]
}

/// 24 comes before 9, 8, 10 and 11; the rows that a reply has keep these.
fn behind() -> Vec<Told> {
    let mut cases = Vec::new();
    for (dtm, number, element) in [
        ("DTM*002*20240301*1530*ES*RD8*PERIOD*Z", 9, 7),
        ("DTM**20240301", 8, 1),
        ("DTM*002*20230229", 10, 2),
        ("DTM*002", 11, 2),
    ] {
        cases.push(barred(in_heading(&[dtm]), 24, 3, 0));
        cases.push(barred(in_level(&[dtm]), number, 4, element));
        cases.push(barred(in_fault(&[dtm]), number, 5, element));
        cases.push(barred(in_fault(&["NCA**UC", dtm]), 24, 6, 0));
    }
    for (nte, number, element) in [("NTE*GEN*A*Z", 9, 3), ("NTE*GEN", 8, 2), ("NTE*GE*A", 10, 1)] {
        cases.push(barred(in_fault(&[nte]), number, 5, element));
        cases.push(barred(in_fault(&["NCA**UC", nte]), 24, 6, 0));
    }
    cases
}

/// A BIN is cut before its place is judged, and a reply comes to none: the EFI before it is refused.
fn bins() -> Vec<Told> {
    vec![
        barred(in_fault(&["BIN*1*A"]), 7, 5, 0),
        barred(in_fault(&["BIN*3*A~C"]), 7, 5, 0).by(How::STRICT_REPLY),
        barred(in_fault(&["EFI*1", "BIN*1*A"]), 24, 5, 0),
        barred(in_fault(&["BIN*0*A"]), 10, 5, 1),
        barred(in_fault(&["BIN*2*ABC"]), 10, 5, 2),
        barred(in_fault(&["BIN"]), 6, 5, 0),
        barred("ST*842*0001~BIN*9*A~", 3, 2, 0),
    ]
}

/// 24 comes before 17.
fn rooms() -> Vec<Told> {
    let short = |segments: &[&str], answer: [u64; 4]| {
        let rooms = (SEGMENT_NUMBERS * 3 - 1, LEVEL_NUMBERS);
        let case = Case::read(after_bnr(segments).into_bytes(), Separators::STANDARD, rooms);
        Told { case, answer: Some(answer) }.by(How::REPLY)
    };
    vec![
        short(&["REF*A", "HL*1**I"], [24, 3, 18, 0]),
        short(&["N1*FR*A", "HL*1**I"], [17, 3, 18, 0]),
        short(&["HL*1**I"], [17, 3, 18, 0]),
        short(&["HL*1**F"], [14, 3, 18, 3]),
        short(&["HL*1**I*0"], [9, 3, 18, 4]),
    ]
}
