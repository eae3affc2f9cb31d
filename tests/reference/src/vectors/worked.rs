//! The worked reports W1 to W12 of document 01, by both choices: they have no line ends.

use super::case::{Case, How, Told};
use super::text::{accepted, joined, refused, w1_with, W1};
use crate::{Separators, SEGMENT_NUMBERS};

/// W1 with a DTM behind BNR.
fn with_dtm(dtm: &str) -> String {
    let mut segments = W1.to_vec();
    segments.insert(2, dtm);
    segments[7] = "SE*8*0001";
    joined(&segments)
}

/// W10: room for six segments.
fn six_segments() -> Told {
    let case = Case::read(joined(&W1).into_bytes(), Separators::STANDARD, (SEGMENT_NUMBERS * 7 - 1, 8));
    Told { case, answer: Some([17, 7, 68, 0]) }
}

pub fn cases() -> Vec<Told> {
    let strictly = reports().into_iter().map(|told| told.by(How::STRICT));
    reports().into_iter().chain(strictly).collect()
}

/// The reports, by the default.
pub fn reports() -> Vec<Told> {
    vec![
        accepted(joined(&W1), 7, 2),
        refused(w1_with(4, "HL*2*1*F*0"), 14, 4, 2),
        refused(w1_with(4, "HL*2*9*I*0"), 13, 4, 2),
        refused(w1_with(4, "HL*1*1*I*0"), 12, 4, 1),
        refused(w1_with(7, "SE*6*0001"), 16, 7, 1),
        refused(joined(&[W1[0], W1[1], W1[2], "SE*4*0001"]), 15, 4, 0),
        refused("", 3, 1, 0),
        refused(joined(&[&W1[..4], &W1[5..]].concat()), 7, 5, 0),
        refused(w1_with(6, "NCA**R1**5"), 11, 6, 4),
        six_segments(),
        accepted(with_dtm("DTM*405*20240229"), 8, 2),
        refused(with_dtm("DTM*405*20230229"), 10, 3, 2),
        accepted(with_dtm("DTM*405**2359"), 8, 2),
        refused(with_dtm("DTM*405**23595"), 10, 3, 3),
    ]
}
