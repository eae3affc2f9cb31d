//! Levels of a reply: HL02 and HL04 absent, its codes, and HL01 that never repeats.

use super::{barred, taken};
use crate::vectors::case::{How, Told};
use crate::vectors::text::{accepted, after_bnr, refused};
use crate::Profile;

pub fn cases() -> Vec<Told> {
    [too_many(), first_too_many(), beside_other_rules(), codes(), names(), without_parents()].concat()
}

/// The HL without empty elements at its end.
fn hl(elements: [&str; 5]) -> String {
    let text = format!("HL*{}", elements.join("*"));
    text.trim_end_matches('*').to_string()
}

/// HL02, HL04 and a fifth element, each there or not, behind a level that HL02 may name: the first of them.
fn too_many() -> Vec<Told> {
    let mut cases = Vec::new();
    for parent in ["", "1", "9"] {
        for mark in ["", "0", "1", "2"] {
            for fifth in ["", "X"] {
                let text = after_bnr(&["HL*1**RP", &hl(["2", parent, "I", mark, fifth])]);
                let there = [(2, parent), (4, mark), (5, fifth)];
                match there.into_iter().find(|(_, element)| !element.is_empty()) {
                    Some((element, _)) => cases.push(barred(text, 9, 4, element)),
                    None => cases.extend(taken(text, 5, 2)),
                }
            }
        }
    }
    cases
}

/// The first level is no other; the first profile takes what a reply may not have.
fn first_too_many() -> Vec<Told> {
    let text = |hl: &str| after_bnr(&[hl]);
    vec![
        barred(text("HL*1*1*I"), 9, 3, 2),
        barred(text("HL*1**I*0"), 9, 3, 4).by(How::STRICT_REPLY),
        barred(text("HL*1**RB*1"), 9, 3, 4),
        barred(text("HL*1**I***X"), 9, 3, 5),
        accepted(text("HL*1**I*0"), 4, 1),
        refused(text("HL*1*1*I"), 13, 3, 2),
        refused(text("HL*1**I*0*X"), 9, 3, 5),
        accepted(after_bnr(&["HL*1**RP*1", "HL*2*1*I*0"]), 5, 2),
        barred(after_bnr(&["HL*1**RP", "HL*2*1*I"]), 9, 4, 2),
    ]
}

/// 5 and 6 come before 9; 8, 10, 12 and 14 come behind it. Within an element a component separator is 10.
fn beside_other_rules() -> Vec<Told> {
    [
        ("HL*1*\x02*I", 5, 2),
        ("HL*1*1*I*", 6, 4),
        ("HL*1*1:*I", 6, 2),
        ("HL*1**I*0:", 6, 4),
        ("HL*1*1*I**", 6, 5),
        ("HL**1*I", 9, 2),
        ("HL***I*0", 9, 4),
        ("HL***I", 8, 1),
        ("HL*1***1", 9, 4),
        ("HL*1*1", 9, 2),
        ("HL*1", 8, 3),
        ("HL*1*1234567890123*I", 9, 2),
        ("HL*1*:A*I", 9, 2),
        ("HL*1**I*AB", 9, 4),
        ("HL*1**I*:1", 9, 4),
        ("HL*1234567890123**I", 10, 1),
        ("HL*1:2**I", 10, 1),
        ("HL*1**I:B", 10, 3),
        ("HL*1**i", 10, 3),
        ("HL*1**RPT", 10, 3),
        ("HL*0*1*F", 9, 2),
        ("HL*0**F*0", 9, 4),
        ("HL*0**RB", 12, 1),
        ("HL*0**F", 12, 1),
    ]
    .into_iter()
    .map(|(hl, number, element)| barred(after_bnr(&["HL*0**RP", hl]), number, 4, element))
    .collect()
}

/// Every code in both profiles: first of all levels and behind another.
fn codes() -> Vec<Told> {
    let mut cases = Vec::new();
    for (profile, how) in Profile::BOTH.into_iter().zip([How::DEFAULT, How::REPLY]) {
        for code in ["RP", "I", "F", "PC", "SN", "RB", "R", "B", "X", "BR", "II", "0"] {
            let stands = match profile {
                Profile::Report => code == "RP" || code == "I",
                Profile::Reply => ["I", "RB", "RP"].contains(&code),
            };
            for before in [&["HL*0**I"][..], &[]] {
                let text = after_bnr(&[before, &[&format!("HL*1**{code}")]].concat());
                let place = before.len() as u64 + 3;
                let told =
                    if stands { accepted(text, place + 1, place - 2) } else { refused(text, 14, place, 3) };
                cases.push(told.by(how));
            }
        }
    }
    cases.push(refused(after_bnr(&["HL*1**RP", "HL*2*1*RB"]), 14, 4, 3));
    cases
}

/// HL01 never repeats, however far apart and whatever the codes are.
fn names() -> Vec<Told> {
    let mut cases = vec![
        barred(after_bnr(&["HL*1**RP", "HL*1**I"]), 12, 4, 1),
        barred(after_bnr(&["HL*1**RB", "HL*1**RB"]), 12, 4, 1).by(How::STRICT_REPLY),
        barred(after_bnr(&["HL*A**I", "NCD**5", "HL*B**RB", "NCD**5", "HL*A**RP"]), 12, 7, 1),
        barred(after_bnr(&["HL*1**I", "HL*2**I", "HL*2**I"]), 12, 5, 1),
        barred(after_bnr(&["HL*ABCDEFGHIJKL**I", "HL*ABCDEFGHIJKL**RB"]), 12, 4, 1),
    ];
    cases.extend(taken(after_bnr(&["HL*1**RP", "HL*01**I", "HL*1 **RB", "HL*11**I", "HL* **RB"]), 8, 5));
    cases.extend(taken(
        after_bnr(&["HL*ABCDEFGHIJKL**I", "HL*ABCDEFGHIJKM**RB", "HL*ABCDEFGHIJK**RP"]),
        6,
        3,
    ));
    cases
}

/// Any number of levels, in any order, none of them under another.
fn without_parents() -> Vec<Told> {
    let codes = ["RB", "I", "I", "RP", "RB", "RP", "RB", "I", "RP", "I", "RB", "RB"];
    let hls: Vec<String> = codes.iter().zip(1..).map(|(code, name)| format!("HL*{name}**{code}")).collect();
    let hls: Vec<&str> = hls.iter().map(String::as_str).collect();
    (1..=hls.len())
        .flat_map(|count| taken(after_bnr(&hls[..count]), count as u64 + 3, count as u64))
        .collect()
}
