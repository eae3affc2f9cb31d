//! Every code under every code, with every mark on both; and every code without a parent.

use super::case::Told;
use super::text::{accepted, after_bnr, refused};
use crate::Profile;

const MARKS: [&str; 3] = ["", "*0", "*1"];

/// The levels above a level of this code, and the name of the nearest.
fn above(code: &str) -> (&'static [&'static str], &'static str) {
    match code {
        "RP" => (&[], ""),
        "I" => (&["HL*R**RP"], "R"),
        _ => (&["HL*R**RP", "HL*S*R*I"], "S"),
    }
}

fn permitted(parent: &str, child: &str) -> bool {
    matches!(
        (parent, child),
        ("RP", "I") | ("I", "F") | ("I", "PC") | ("F", "PC") | ("I", "SN") | ("F", "SN")
    )
}

/// Whether a mark is unfit for a code by itself.
fn unfit(code: &str, mark: &str) -> bool {
    mark == "*1" && (code == "PC" || code == "SN")
}

fn pair(parent: &str, mark: &str, child: &str, child_mark: &str) -> Told {
    let (above, name) = above(parent);
    let own = format!("HL*P*{name}*{parent}{mark}");
    let under = format!("HL*C*P*{child}{child_mark}");
    let text = after_bnr(&[above, &[&own, &under]].concat());
    let own_place = above.len() as u64 + 3;
    let levels = above.len() as u64 + 2;
    if unfit(parent, mark) {
        refused(text, 15, own_place, 4)
    } else if !permitted(parent, child) {
        refused(text, 14, own_place + 1, 2)
    } else if mark == "*0" {
        refused(text, 15, own_place + 1, 2)
    } else if unfit(child, child_mark) {
        refused(text, 15, own_place + 1, 4)
    } else if child_mark == "*1" {
        refused(text, 15, own_place + 2, 0)
    } else {
        accepted(text, levels + 3, levels)
    }
}

fn alone(code: &str, mark: &str) -> Told {
    let text = after_bnr(&[&format!("HL*1**{code}{mark}")]);
    if code != "RP" && code != "I" {
        refused(text, 14, 3, 3)
    } else if mark == "*1" {
        refused(text, 15, 4, 0)
    } else {
        accepted(text, 4, 1)
    }
}

pub fn cases() -> Vec<Told> {
    let mut cases = Vec::new();
    let codes = Profile::Report.codes();
    for parent in codes {
        for child in codes {
            for mark in MARKS {
                for child_mark in MARKS {
                    cases.push(pair(parent, mark, child, child_mark));
                }
            }
        }
    }
    for code in codes {
        for mark in MARKS {
            cases.push(alone(code, mark));
        }
    }
    cases
}
