//! Where readers have gone astray, and points that are easily read in two ways.

use super::case::{Case, How, Told};
use super::text::{accepted, after_bnr, closed, in_fault, in_heading, in_level, joined, refused, start_of};
use crate::{Separators, SEGMENT_NUMBERS};

pub fn cases() -> Vec<Told> {
    [
        parents(),
        rows_passed(),
        maxima(),
        unfilled_marks(),
        cutting(),
        odd_bytes(),
        empty_ends(),
        loops(),
        too_many(),
        composites(),
        types(),
        notes(),
        levels(),
        closing(),
        rooms(),
    ]
    .concat()
}

/// HL02 is the text of an earlier HL01, not a position.
fn parents() -> Vec<Told> {
    vec![
        accepted(after_bnr(&["HL*2**RP*1", "HL*1*2*I"]), 5, 2),
        refused(after_bnr(&["HL*7**RP", "HL*8*1*I"]), 13, 4, 2),
        accepted(after_bnr(&["HL*A**RP", "HL*B*A*I", "HL*C*B*F"]), 6, 3),
        accepted(after_bnr(&["HL*2**I", "HL*1*2*F", "HL*3*1*PC"]), 6, 3),
        refused(after_bnr(&["HL*01**RP", "HL*2*1*I"]), 13, 4, 2),
        refused(after_bnr(&["HL*1 **RP", "HL*2*1*I"]), 13, 4, 2),
        refused(after_bnr(&["HL*AB**RP", "HL*2*A*I"]), 13, 4, 2),
        refused(after_bnr(&["HL*A**RP", "HL*2*AB*I"]), 13, 4, 2),
        accepted(after_bnr(&["HL*A**RP", "HL*AB**RP", "HL*ABC*AB*I", "HL*B*A*I"]), 7, 4),
    ]
}

/// A REF after PWK is row 10; row 3 has been passed.
fn rows_passed() -> Vec<Told> {
    vec![
        accepted(in_heading(&["REF*A", "PWK*A", "REF*B"]), 7, 1),
        accepted(in_heading(&["PWK*A", "REF*B", "REF*C", "DTM*002*20240301"]), 8, 1),
        refused(in_heading(&["PWK*A", "DTM*002*20240301", "REF*B"]), 7, 5, 0),
        refused(in_heading(&["DTM*002*20240301", "REF*B"]), 7, 4, 0),
        refused(in_heading(&["PID*F", "REF*B"]), 7, 4, 0),
        accepted(in_heading(&["MEA*A", "REF*B", "MEA*C", "DTM*002*20240301", "REF*B"]), 9, 1),
        refused(in_heading(&["N1*SU*A", "PWK*B"]), 7, 4, 0),
    ]
}

/// A third N2 does not fit, nor a third N3, nor a second N4.
fn maxima() -> Vec<Told> {
    let mut cases = Vec::new();
    for (lead, before) in [(&["BNR*1"][..], 2), (&["BNR*1", "HL*1**I", "NCD*1"], 4)] {
        for (fits, given, at) in [
            (false, &["N1*SU*A", "N2*A", "N2*B", "N2*C"][..], 4),
            (false, &["N1*SU*A", "N3*A", "N3*B", "N3*C"], 4),
            (false, &["N1*SU*A", "N4*A", "N4*B"], 3),
            (false, &["N1*SU*A", "N2*A", "N3*B", "N2*C"], 4),
            (true, &["N1*SU*A", "N2*A", "N2*B", "N1*SU*C", "N2*D", "N2*E"], 0),
            (false, &["N1*SU*A", "N2*A", "N2*B", "N1*SU*C", "N2*D", "N2*E", "N2*F"], 7),
            (true, &["N1*SU*A", "N2*A", "N2*B", "N3*A", "N3*B", "N4*C", "REF*D", "PER*E"], 0),
        ] {
            let end: &[&str] = if before == 2 { &["HL*1**I"] } else { &[] };
            let text = closed(&[&["ST*842*0001"], lead, given, end].concat());
            let count = text.matches('~').count() as u64;
            cases.push(if fits { accepted(text, count, 1) } else { refused(text, 7, before + at, 0) });
        }
    }
    let last = |given: &[&str]| in_fault(&[&["NCA**R1"], given].concat());
    cases.push(refused(last(&["N1*SU*A", "N2*A", "N2*B", "N2*C"]), 7, 9, 0));
    cases.push(refused(last(&["N1*SU*A", "N3*A", "N3*B", "N3*C"]), 7, 9, 0));
    cases.push(refused(last(&["N1*SU*A", "N4*A", "N4*B"]), 7, 8, 0));
    cases.push(accepted(last(&["N1*SU*A", "N2*A", "N2*B", "N1*SU*C", "N2*D", "N2*E"]), 12, 1));
    cases
}

/// A mark 1 without a child is refused at SE; the HL is not blamed.
fn unfilled_marks() -> Vec<Told> {
    vec![
        refused(after_bnr(&["HL*1**RP*1"]), 15, 4, 0),
        refused(after_bnr(&["HL*1**RP*1", "HL*2*1*I*1"]), 15, 5, 0),
        refused(after_bnr(&["HL*1**RP*1", "HL*2**I*1", "HL*3*1*I"]), 15, 6, 0),
        accepted(
            after_bnr(&["HL*1**RP*1", "HL*2**I*1", "HL*3*1*I", "HL*4*2*F", "HL*5*1*I", "HL*6*2*SN"]),
            9,
            6,
        ),
        accepted(after_bnr(&["HL*1**RP*1", "HL*2*1*I*1", "HL*3*2*F*1", "HL*4*3*PC*0"]), 7, 4),
    ]
}

/// Tags, terminators, and the order of 3, 5, 4, 6 and 7.
fn cutting() -> Vec<Told> {
    vec![
        refused("~", 4, 1, 0),
        refused("*842~", 4, 1, 0),
        refused("~ST*842*0001~", 4, 1, 0),
        refused("ST~", 6, 1, 0),
        refused("XX~", 4, 1, 0),
        refused("XX*~", 4, 1, 0),
        refused("st*842*0001~", 4, 1, 0),
        refused("ST *842*0001~", 4, 1, 0),
        refused("S*842*0001~", 4, 1, 0),
        refused("STST*842*0001~", 4, 1, 0),
        refused("S:T*842*0001~", 4, 1, 0),
        refused("ST:*842*0001~", 4, 1, 0),
        refused(":~", 4, 1, 0),
        refused("ST*842*0001", 3, 1, 0),
        refused("ST*842*0001~", 3, 2, 0),
        refused("ST*842*0001~BNR*1", 3, 2, 0),
        refused("ST*842*0001~\nBNR*1~", 5, 2, 0).by(How::STRICT),
        refused("BNR*~", 6, 1, 1),
        refused("BNR*1~", 7, 1, 0),
        refused("SE*1*0001~", 7, 1, 0),
        refused("ST*842*0001~ST*842*0001~", 7, 2, 0),
        refused("ST*842*0001~SE*2*0001~", 7, 2, 0),
        refused("ST*842*0001~BNR*1~SE*3*0001~", 7, 3, 0),
        refused("ST*843*0001~", 10, 1, 1),
        refused("ST*843*1~", 10, 1, 1),
        refused("ST*842*1~", 10, 1, 2),
    ]
}

/// Bytes that are neither data nor separator.
fn odd_bytes() -> Vec<Told> {
    vec![
        refused(b"\x01T*842*0001~", 5, 1, 0),
        refused(b"S\xFFT*842*0001~", 5, 1, 0),
        refused(b"XX\x7F~", 5, 1, 0),
        refused(b"ST*8\x002*0001~", 5, 1, 1),
        refused(b"ST*842*00\n01~", 5, 1, 2),
        refused(b"ST*842*0001*\x80~", 5, 1, 3),
        refused(b"ST*842*\x1F*\x1E~", 5, 1, 2),
        refused(b"ST*84:\x1F:~", 5, 1, 1),
        refused(b"ST*842*0001\x01", 3, 1, 0),
        accepted(in_heading(&["REF* }|^_`{ !"]), 5, 1),
    ]
}

/// No element, an empty last element, an empty last component.
fn empty_ends() -> Vec<Told> {
    vec![
        refused("ST*~", 6, 1, 1),
        refused("ST*842:*0001~", 6, 1, 1),
        refused("ST*:*0001~", 6, 1, 1),
        refused("ST*842*0001*~", 6, 1, 3),
        refused("ST*842:*~", 6, 1, 1),
        refused("ST**~", 6, 1, 2),
        refused(in_level(&["HL*2*1*F**"]), 6, 4, 5),
        refused(after_bnr(&["HL*1**RP**"]), 6, 3, 5),
        refused(after_bnr(&["HL*1**RP*"]), 6, 3, 4),
        refused(in_heading(&["REF*A:"]), 6, 3, 1),
        refused(in_heading(&["REF*A:*B*"]), 6, 3, 1),
        refused(in_heading(&["REF*A*B:*C"]), 6, 3, 2),
        refused(in_heading(&["REF*A**::*C:"]), 6, 3, 3),
        accepted(in_heading(&["REF*A::B"]), 5, 1),
        accepted(in_heading(&["REF*:B"]), 5, 1),
        accepted(in_heading(&["REF****A"]), 5, 1),
        accepted(in_heading(&["REF* "]), 5, 1),
        refused(in_fault(&["NCA**R1**5*EA:"]), 6, 5, 5),
    ]
}

/// Loops are opened by their first row and left only after their mandatory rows.
fn loops() -> Vec<Told> {
    vec![
        refused(in_level(&["LM*A"]), 7, 5, 0),
        refused(in_level(&["LM*A", "LM*B"]), 7, 5, 0),
        refused(in_level(&["LM*A", "MEA*B"]), 7, 5, 0),
        refused(in_level(&["LQ*A"]), 7, 4, 0),
        accepted(in_level(&["LM*A", "LQ*B", "LQ*C", "LM*D", "LQ*E"]), 9, 1),
        refused(in_level(&["FA1*A", "NCD*1"]), 7, 5, 0),
        accepted(in_level(&["FA1*A", "FA2*B", "FA2*C", "FA1*D", "FA2*E"]), 9, 1),
        refused(in_fault(&["EFI*A"]), 7, 6, 0),
        refused(in_fault(&["EFI*A", "BIN*3*ABC", "BIN*3*ABC"]), 7, 7, 0),
        accepted(in_fault(&["EFI*A", "BIN*3*ABC", "EFI*A", "BIN*1*A"]), 9, 1),
        refused(in_fault(&["NTE*GEN*A", "NCA**R1", "LM*A", "LQ*B", "FA1*C", "FA2*D"]), 7, 9, 0),
        refused(in_level(&["NTE*GEN*A"]), 7, 4, 0),
        refused(in_level(&["STA*A"]), 7, 4, 0),
        accepted(
            in_level(&["SPS*A", "STA*B", "DTM*002*20240301", "REF*C", "STA*D", "SPS*E", "MEA*F"]),
            11,
            1,
        ),
        refused(in_level(&["SPS*A", "STA*B", "MEA*C"]), 7, 6, 0),
        refused(in_level(&["LIN**BP*A", "LIN**BP*B"]), 7, 5, 0),
        refused(in_fault(&["LIN**BP*A"]), 7, 5, 0),
    ]
}

/// Too many elements or components; the number is the first past the last.
fn too_many() -> Vec<Told> {
    let sixteen = format!("EA{}EA", ":".repeat(15));
    vec![
        refused("ST*842*0001**X~", 9, 1, 3),
        refused("ST*842*0001*X*Y*Z~", 9, 1, 3),
        refused("ST***X~", 9, 1, 3),
        refused(in_fault(&[&format!("NCA**R1**5*{sixteen}")]), 9, 5, 5),
        refused(in_fault(&[&format!("NCA**R1**5*{sixteen}*X")]), 9, 5, 5),
        refused(in_fault(&["NCA**R1**5*EA*X"]), 9, 5, 6),
        refused(in_fault(&["NCA**R1**5*:X*X"]), 9, 5, 6),
        refused(in_heading(&["N1*:*A"]), 6, 3, 1),
        refused(in_heading(&["N1*:SU*A"]), 10, 3, 1),
        refused(in_heading(&["N1*S:U*A*X"]), 10, 3, 1),
    ]
}

/// NCA05: the first component is mandatory where NCA05 is there; empty ones are absent.
fn composites() -> Vec<Told> {
    let nca = |composite: &str| in_fault(&[&format!("NCA**R1**5*{composite}")]);
    vec![
        accepted(nca("EA"), 6, 1),
        accepted(nca("EA:1:2:FT:-3:.4:EA:5.:-.6:EA:7:8:EA:9:0"), 6, 1),
        accepted(nca("EA::2"), 6, 1),
        accepted(nca("EA::::5"), 6, 1),
        accepted(nca("EA::::::::::::::9"), 6, 1),
        accepted(nca("EA:1:2::3"), 6, 1),
        refused(nca(":X"), 8, 5, 5),
        refused(nca(":1:2"), 8, 5, 5),
        refused(nca("::::::::::::::9"), 8, 5, 5),
        refused(nca("EA:X"), 10, 5, 5),
        refused(nca("E"), 10, 5, 5),
        refused(nca("ea"), 10, 5, 5),
        refused(nca("EA:1:2:F"), 10, 5, 5),
        refused(nca("EA::12345678901"), 10, 5, 5),
        accepted(nca("EA:123456789012345:1234567890"), 6, 1),
        refused(nca("EA:1234567890123456"), 10, 5, 5),
    ]
}

/// Numbers, dates, times, codes and texts.
fn types() -> Vec<Told> {
    let mut cases = Vec::new();
    let fit = |number: &str| accepted(in_fault(&[&format!("NCA**R1**{number}*EA")]), 6, 1);
    let unfit = |number: &str| refused(in_fault(&[&format!("NCA**R1**{number}*EA")]), 10, 5, 4);
    cases.extend(["5.", ".5", "-.5", "-5", "0", "00000", "-123456789.012345", "1.00000"].map(fit));
    cases.extend([".", "-", "-.", "+1", "1.2.3", "1-"].map(unfit));
    cases.extend([fit("1E2"), unfit(" 1"), unfit("1234567890123456")]);
    for date in ["00000229", "20000229", "99991231", "20240131", "20240430"] {
        cases.push(accepted(in_heading(&[&format!("DTM*002*{date}")]), 5, 1));
    }
    for date in
        ["19000229", "20240230", "20240431", "20240100", "20240001", "20241301", "2024022", "202402290"]
    {
        cases.push(refused(in_heading(&[&format!("DTM*002*{date}")]), 10, 3, 2));
    }
    for time in ["0000", "2359", "235959", "2359599", "23595999"] {
        cases.push(accepted(in_heading(&[&format!("DTM*002**{time}")]), 5, 1));
    }
    for time in ["2400", "2360", "235960", "235", "23595", "235959999", "23A9"] {
        cases.push(refused(in_heading(&[&format!("DTM*002**{time}")]), 10, 3, 3));
    }
    cases.extend([
        refused(in_heading(&["N1*su*A"]), 10, 3, 1),
        refused(in_heading(&["N1*S *A"]), 10, 3, 1),
        refused(in_heading(&["N1*S-*A"]), 10, 3, 1),
        accepted(in_heading(&["N1*0Z* "]), 5, 1),
        accepted(in_heading(&["N1*SU*a.-/ '"]), 5, 1),
        refused(in_heading(&["N1*SU*A:B"]), 10, 3, 2),
        refused(in_heading(&["N1*SU**92"]), 11, 3, 3),
    ]);
    cases
}

/// Notes: the first broken one in the paper's order, and the first element it prints.
fn notes() -> Vec<Told> {
    vec![
        refused(in_heading(&["DTM*002"]), 11, 3, 2),
        refused(in_heading(&["DTM*002***ES"]), 11, 3, 2),
        refused(in_heading(&["DTM*002*20240301**ES"]), 11, 3, 4),
        refused(in_heading(&["DTM*002*20240301**ES*RD8"]), 11, 3, 4),
        refused(in_heading(&["DTM*002*20240301***RD8"]), 11, 3, 5),
        refused(in_heading(&["DTM*002*20240301****PERIOD"]), 11, 3, 5),
        refused(in_heading(&["DTM*002*****PERIOD"]), 11, 3, 2),
        accepted(in_heading(&["DTM*002****RD8*PERIOD"]), 5, 1),
        accepted(in_heading(&["DTM*002**1530*ES"]), 5, 1),
        refused(in_heading(&["N1*SU"]), 11, 3, 2),
        refused(in_heading(&["N1*SU*A**A17"]), 11, 3, 3),
        refused(in_heading(&["N1*SU***A17"]), 11, 3, 2),
        accepted(in_heading(&["N1*SU**92*A17"]), 5, 1),
        refused(in_level(&["LIN**BP*A*LT"]), 11, 4, 4),
        refused(in_level(&["LIN**BP*A*LT*B**C"]), 11, 4, 6),
        accepted(in_level(&["LIN**BP*A***LT*C"]), 5, 1),
        refused(in_fault(&["NCA*1"]), 11, 5, 2),
        refused(in_fault(&["NCA****5*EA"]), 11, 5, 2),
        refused(in_fault(&["NCA**R1**5"]), 11, 5, 4),
        refused(in_fault(&["NCA**R1***EA"]), 11, 5, 4),
        accepted(in_fault(&["NCA***TEXT"]), 6, 1),
    ]
}

/// The order of 12, 13, 14 and 15 at an HL.
fn levels() -> Vec<Told> {
    vec![
        refused(after_bnr(&["HL*1*1*I"]), 13, 3, 2),
        refused(after_bnr(&["HL*1**RP", "HL*1*9*XX"]), 12, 4, 1),
        refused(after_bnr(&["HL*1**RP", "HL*2*2*I"]), 13, 4, 2),
        refused(after_bnr(&["HL*1**RP", "HL*2*9*XX"]), 13, 4, 2),
        refused(after_bnr(&["HL*1**RP", "HL*2*1*XX"]), 14, 4, 3),
        refused(after_bnr(&["HL*1**XX"]), 14, 3, 3),
        refused(after_bnr(&["HL*1**F"]), 14, 3, 3),
        refused(after_bnr(&["HL*1**F*2"]), 14, 3, 3),
        refused(after_bnr(&["HL*1**RP*0", "HL*2*1*F"]), 14, 4, 2),
        refused(after_bnr(&["HL*1**RP*0", "HL*2*1*I"]), 15, 4, 2),
        refused(after_bnr(&["HL*1**RP*0", "HL*2*1*I*A"]), 15, 4, 2),
        refused(after_bnr(&["HL*1**RP*2"]), 15, 3, 4),
        refused(after_bnr(&["HL*1**RP*A"]), 15, 3, 4),
        refused(after_bnr(&["HL*1**RP*a"]), 10, 3, 4),
        refused(after_bnr(&["HL*1**I", "HL*2*1*PC*1"]), 15, 4, 4),
        refused(after_bnr(&["HL*1**I", "HL*2*1*SN*1"]), 15, 4, 4),
        accepted(after_bnr(&["HL*1**I", "HL*2*1*SN*0"]), 5, 2),
        accepted(after_bnr(&["HL*1**I", "HL*2*1*SN"]), 5, 2),
        accepted(after_bnr(&["HL*1**I", "HL*2**I", "HL*3**RP"]), 6, 3),
        refused(after_bnr(&["HL*1**I", "HL*2**RP", "HL*3*1*PC", "HL*2*3*SN"]), 12, 6, 1),
        accepted(after_bnr(&["HL*123456789012**RP", "HL*12345678901*123456789012*I"]), 5, 2),
    ]
}

/// SE: the count as a number, ST02 byte for byte, then the marks.
fn closing() -> Vec<Told> {
    let report = |se: &str| joined(&["ST*842*00a1", "BNR*1", "HL*1**RP", se]);
    let waiting = |se: &str| joined(&["ST*842*0001", "BNR*1", "HL*1**RP*1", se]);
    let mut trailing = accepted(report("SE*4*00a1"), 4, 1);
    if let Case::Read { input, rooms, .. } = &mut trailing.case {
        input.extend(b"ST*\0\xFF~~~SE");
        *rooms = (SEGMENT_NUMBERS * 6 + 1, 7);
    }
    vec![
        accepted(report("SE*4*00a1"), 4, 1),
        accepted(report("SE*04*00a1"), 4, 1),
        accepted(report("SE*0000000004*00a1"), 4, 1),
        refused(report("SE*00000000004*00a1"), 10, 4, 1),
        refused(report("SE*4.*00a1"), 10, 4, 1),
        refused(report("SE*4*00A1"), 16, 4, 2),
        refused(report("SE*4*00a10"), 16, 4, 2),
        refused(report("SE*5*00A1"), 16, 4, 1),
        refused(report("SE*0*00a1"), 16, 4, 1),
        refused(report("SE*4294967300*00a1"), 16, 4, 1),
        refused(report("SE*9999999999*00a1"), 16, 4, 1),
        refused(waiting("SE*3*0002"), 16, 4, 1),
        refused(waiting("SE*4*0002"), 16, 4, 2),
        refused(waiting("SE*4*0001"), 15, 4, 0),
        trailing,
    ]
}

/// A reading with so much room.
fn with_room(text: &str, rooms: (usize, usize), answer: [u64; 3]) -> Told {
    let byte = start_of(text.as_bytes(), b'~', answer[1]);
    let case = Case::read(text.into(), Separators::STANDARD, rooms);
    Told { case, answer: Some([answer[0], answer[1], byte, answer[2]]) }
}

/// 17 comes after every fault of the segment; an HL needs room in both tables.
fn rooms() -> Vec<Told> {
    let text = after_bnr(&["HL*1**RP", "HL*2*1*I"]);
    let faulty = after_bnr(&["HL*1**RP", "HL*2*1*F"]);
    let waiting = after_bnr(&["HL*1**RP*1"]);
    vec![
        with_room(&text, (0, 0), [17, 1, 0]),
        with_room(&text, (SEGMENT_NUMBERS - 1, 8), [17, 1, 0]),
        with_room(&text, (SEGMENT_NUMBERS * 3 - 1, 8), [17, 3, 0]),
        with_room(&text, (SEGMENT_NUMBERS * 5, 3), [17, 3, 0]),
        with_room(&text, (SEGMENT_NUMBERS * 4 - 1, 8), [17, 4, 0]),
        with_room(&text, (SEGMENT_NUMBERS * 5, 7), [17, 4, 0]),
        with_room(&text, (SEGMENT_NUMBERS * 5 - 1, 8), [17, 5, 0]),
        with_room(&faulty, (SEGMENT_NUMBERS * 3, 4), [14, 4, 2]),
        with_room(&waiting, (SEGMENT_NUMBERS * 3, 4), [15, 4, 0]),
        with_room("ST*842*1~", (0, 0), [10, 1, 2]),
    ]
}
