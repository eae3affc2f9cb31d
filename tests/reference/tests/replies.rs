//! Replies, the second profile (document 02, Item 9): by hand, at every row, and generated ones held to the
//! words and to the first profile.

mod both;

use both::{given, Outcome};
use reference::generator::{report, Case};
use reference::plain::{candidates, first_ways};
use reference::rows::{NEXT, TAGS};
use reference::vectors::replies::{whole_segments, SMALL, WHOLE};
use reference::vectors::text::{after_bnr, in_fault, in_heading, in_level, joined, EVERY_ROW};
use reference::{rewrite, LineEnds, Profile, Separators, LEVEL_NUMBERS, SEGMENT_NUMBERS};
use std::collections::{BTreeMap, BTreeSet};

const STANDARD: Separators = Separators::STANDARD;

/// More room than any text here needs.
const ROOM: (usize, usize) = (SEGMENT_NUMBERS * 100, LEVEL_NUMBERS * 20);

/// The rows of a reply.
const ROWS: [u64; 21] = [1, 2, 12, 17, 18, 19, 23, 24, 25, 26, 30, 31, 46, 47, 48, 49, 51, 56, 64, 71, 79];

/// Reads a text by the profile with the standard separators; where it has no line end, both choices give the
/// same.
fn read(text: &str, profile: Profile) -> Outcome {
    let [skipping, strictly] =
        LineEnds::BOTH.map(|line_ends| given(text.as_bytes(), STANDARD, (line_ends, profile), ROOM));
    assert!(skipping == strictly || text.contains(['\r', '\n']), "{text}");
    skipping
}

/// The answers by both profiles: the first, replies.
fn answers(text: &str) -> [[u64; 4]; 2] {
    Profile::BOTH.map(|profile| read(text, profile).answer)
}

/// Number, segment and element of the answer by the profile of replies; the number alone if that is 0.
fn replied(text: &str) -> (u64, u64, u64) {
    match read(text, Profile::Reply).answer {
        [0, ..] => (0, 0, 0),
        [number, segment, _, element] => (number, segment, element),
    }
}

#[test]
fn a_small_reply_is_accepted_with_its_tables() {
    let text = "ST*842*0001~BNR*11*SQ7*20240301~HL*1**RP~HL*2**I~NCD**5~NCA**UC~HL*3**RB~SE*8*0001~";
    assert_eq!(joined(&SMALL), text);
    let outcome = read(text, Profile::Reply);
    assert_eq!(outcome.answer, [0, 8, 3, 83]);
    assert_eq!(
        outcome.records(),
        [
            [0, 11, 1, 0],
            [12, 19, 2, 0],
            [32, 8, 18, 1],
            [41, 7, 18, 2],
            [49, 6, 46, 2],
            [56, 7, 64, 2],
            [64, 8, 18, 3],
            [73, 9, 79, 0],
        ]
    );
    assert_eq!(outcome.levels[..12], [3, 0, 1, 1, 4, 0, 1, 2, 7, 0, 1, 6]);
    // The first profile does not know RB.
    assert_eq!(answers(text)[0], [14, 7, 64, 3]);
}

#[test]
fn a_whole_reply_has_the_rows_told_by_hand() {
    let outcome = read(&joined(&whole_segments()), Profile::Reply);
    assert_eq!(outcome.answer[..3], [0, 30, 3]);
    let rows: Vec<u64> = outcome.records().iter().map(|record| record[2]).collect();
    assert_eq!(rows, WHOLE.map(|(_, row)| row));
    assert_eq!(rows.iter().copied().collect::<BTreeSet<u64>>(), BTreeSet::from(ROWS));
    assert_eq!(outcome.levels[..12], [6, 0, 1, 1, 9, 0, 1, 2, 26, 0, 1, 6]);
    let levels: Vec<u64> = outcome.records().iter().map(|record| record[3]).collect();
    let told = [vec![0; 5], vec![1; 3], vec![2; 17], vec![3; 4], vec![0]].concat();
    assert_eq!(levels, told);
}

#[test]
fn rows_77_and_78_are_not_in_a_reply() {
    let text = in_fault(&["NCA**UC", "LM*DF", "LQ*0*A"]);
    assert_eq!(answers(&text).map(|answer| answer[0]), [0, 24]);
    assert_eq!(replied(&text), (24, 6, 0));
    // The other LM and LQ, rows 30 and 31, are; and LQ is mandatory there as well.
    assert_eq!(replied(&in_level(&["LM*DF", "LQ*0*A"])), (0, 0, 0));
    assert_eq!(replied(&in_level(&["LM*DF", "NCD**5"])), (7, 5, 0));
    assert_eq!(replied(&in_fault(&["LM*DF", "LQ*0*A"])), (24, 5, 0));
}

/// A segment for each of the 79 rows, each with its row.
fn every_row() -> Vec<(String, u64)> {
    let text = after_bnr(&EVERY_ROW);
    text.split_terminator('~').map(String::from).zip(1..).collect()
}

#[test]
fn every_row_is_asked_of_the_profile() {
    // All 79 rows at once: refused at the first that a reply has not.
    let all: Vec<String> = every_row().into_iter().map(|(segment, _)| segment).collect();
    assert_eq!(replied(&joined(&all)), (24, 3, 0));
    // Those that a reply has, and one more: refused at that, unless a reply has it too or its loop is not open.
    let kept: Vec<(String, u64)> = every_row().into_iter().filter(|(_, row)| ROWS.contains(row)).collect();
    let (mut foreign, mut without_loop) = (Vec::new(), Vec::new());
    for (segment, row) in every_row() {
        if ROWS.contains(&row) {
            continue;
        }
        let at = kept.iter().position(|(_, other)| *other > row).unwrap();
        let mut segments: Vec<&str> = kept.iter().map(|(segment, _)| segment.as_str()).collect();
        segments.insert(at, &segment);
        match replied(&joined(&segments)) {
            (24, place, 0) if place == at as u64 + 1 => foreign.push(row),
            (7, place, 0) if place == at as u64 + 1 => without_loop.push(row),
            other => panic!("row {row}: {other:?}"),
        }
    }
    println!("24: {foreign:?}; 7: {without_loop:?}");
    assert_eq!(foreign.len() + without_loop.len(), 58);
}

#[test]
fn every_tag_at_every_row_of_a_reply() {
    let mut came: BTreeMap<u64, usize> = BTreeMap::new();
    let mut asked = BTreeSet::new();
    let mut seen = vec![(vec!["ST"], 1)];
    let mut at = 0;
    while at < seen.len() {
        let (way, row) = seen[at].clone();
        at += 1;
        for (tag, text) in TAGS {
            let next = ways_to(&way, text);
            assert_eq!(next.unwrap_or(0), usize::from(NEXT[row][tag as usize]));
            let expected = match next {
                None => 7,
                Some(next) if !ROWS.contains(&(next as u64)) => 24,
                Some(79) => 0,
                Some(_) => 3,
            };
            let segments: Vec<String> =
                way.iter().chain([&text]).zip(1..).map(|(tag, number)| short(tag, number)).collect();
            let outcome = read(&joined(&segments), Profile::Reply);
            assert_eq!(outcome.answer[0], expected, "{segments:?}");
            *came.entry(expected).or_default() += 1;
            asked.extend(next);
            if let Some(next) = next.filter(|next| expected == 3 && seen.iter().all(|(_, row)| row != next)) {
                seen.push(([&way[..], &[text]].concat(), next));
            }
        }
    }
    println!("{came:?}");
    // Twenty rows with something behind them; a row within a loop that a reply has not is never asked for.
    assert_eq!(at, 20);
    assert_eq!((asked.len(), came[&24] >= 38), (58, true));
}

/// The row that a tag has behind these, by the bracketed list.
fn ways_to(way: &[&str], tag: &str) -> Option<usize> {
    let mut ways = first_ways();
    for tag in way {
        ways = candidates(&ways, tag).into_iter().map(|(_, way)| way).collect();
    }
    candidates(&ways, tag).first().map(|(row, _)| *row)
}

/// A short segment; its number serves as HL01 and as SE01.
fn short(tag: &str, number: usize) -> String {
    match tag {
        "ST" => "ST*842*0001".to_string(),
        "SE" => format!("SE*{number}*0001"),
        "HL" => format!("HL*{number}**RB"),
        "N1" => "N1*SU*A".to_string(),
        "DTM" => "DTM*002*20240301".to_string(),
        "LIN" => "LIN**BP*A".to_string(),
        "NTE" => "NTE**A".to_string(),
        "NCA" => "NCA**UC".to_string(),
        "BIN" => "BIN*1*A".to_string(),
        _ => format!("{tag}*A"),
    }
}

#[test]
fn twenty_four_comes_behind_seven_and_before_nine() {
    assert_eq!(replied(&in_heading(&["LIN**BP*A"])), (7, 3, 0));
    assert_eq!(replied(&in_heading(&["REF*A"])), (24, 3, 0));
    for dtm in ["DTM*002*20240301*1530*ES*RD8*PERIOD*Z", "DTM**20240301", "DTM*002*20230229", "DTM*002"] {
        assert_eq!(replied(&in_heading(&[dtm])), (24, 3, 0));
    }
    assert_eq!(replied(&in_level(&["DTM*002*20240301*1530*ES*RD8*PERIOD*Z"])), (9, 4, 7));
    assert_eq!(replied(&in_heading(&["REF*\x02"])), (5, 3, 1));
    assert_eq!(replied(&in_heading(&["REF*"])), (6, 3, 1));
    assert_eq!(replied("ST*842*0001~BNR*1~REF*A"), (3, 3, 0));
    // Before 17.
    let how = (LineEnds::Skipped, Profile::Reply);
    assert_eq!(given(in_heading(&["REF*A"]).as_bytes(), STANDARD, how, (8, 0)).answer, [24, 3, 18, 0]);
    assert_eq!(given(in_heading(&["N1*FR*A"]).as_bytes(), STANDARD, how, (8, 0)).answer, [17, 3, 18, 0]);
}

#[test]
fn nine_has_the_least_of_two_four_and_five() {
    for (hl, element) in [
        ("HL*2*1*I", 2),
        ("HL*2*9*I", 2),
        ("HL*2**I*0", 4),
        ("HL*2**I*1", 4),
        ("HL*2**I*X", 4),
        ("HL*2**I**X", 5),
        ("HL*2**I***X", 5),
        ("HL*2*1*I*0", 2),
        ("HL*2*1*I**X", 2),
        ("HL*2**I*1*X", 4),
        ("HL*2*1*I*1*X", 2),
        // Before what else may be wrong.
        ("HL**1*I", 2),
        ("HL*2*1", 2),
        ("HL*2***0", 4),
        ("HL*1*1*F", 2),
        ("HL*2*1234567890123*I", 2),
        ("HL*2**I*AB", 4),
        ("HL*2*:*I*0", 0),
    ] {
        let expected = if element == 0 { (6, 4, 2) } else { (9, 4, element) };
        assert_eq!(replied(&after_bnr(&["HL*1**RP", hl])), expected, "{hl}");
    }
    // The first profile takes HL02 and HL04.
    assert_eq!(answers(&after_bnr(&["HL*1**RP*1", "HL*2*1*I*0"])).map(|answer| answer[0]), [0, 9]);
}

#[test]
fn codes_by_both_profiles() {
    let alone = |code: &str| answers(&after_bnr(&[&format!("HL*1**{code}")]));
    let (taken, unknown) = ([0, 4, 1], [14, 3, 18, 3]);
    for code in ["RP", "I"] {
        assert!(alone(code).iter().all(|answer| answer[..3] == taken), "{code}");
    }
    assert_eq!((alone("RB")[0], &alone("RB")[1][..3]), (unknown, &taken[..]));
    for code in ["F", "PC", "SN", "X", "R", "B"] {
        assert_eq!(alone(code), [unknown; 2], "{code}");
    }
    // Under an item the first profile takes F, PC and SN, and RB not there either.
    for (code, number) in [("F", 0), ("PC", 0), ("SN", 0), ("RB", 14)] {
        let text = after_bnr(&["HL*1**I", &format!("HL*2*1*{code}")]);
        assert_eq!(answers(&text).map(|answer| answer[0]), [number, 9], "{code}");
    }
}

#[test]
fn hl01_never_repeats() {
    assert_eq!(replied(&after_bnr(&["HL*1**RP", "HL*1**I"])), (12, 4, 1));
    assert_eq!(replied(&after_bnr(&["HL*A**RB", "NCD**5", "HL*B**I", "HL*A**RB"])), (12, 6, 1));
    // 12 comes before 14.
    assert_eq!(replied(&after_bnr(&["HL*1**RP", "HL*1**F"])), (12, 4, 1));
    assert_eq!(replied(&after_bnr(&["HL*1**RP", "HL*01**I", "HL*1 **RB"])), (0, 0, 0));
}

#[test]
fn levels_of_a_reply_have_no_parents() {
    let hls: Vec<String> = (0..18).map(|at| format!("HL*{at}**{}", ["RB", "I", "RP"][at * at % 3])).collect();
    let hls: Vec<&str> = hls.iter().map(String::as_str).collect();
    let outcome = read(&after_bnr(&hls), Profile::Reply);
    assert_eq!(outcome.answer[..3], [0, 21, 18]);
    for (at, level) in outcome.levels.chunks(LEVEL_NUMBERS).take(18).enumerate() {
        assert_eq!(*level, [at as u64 + 3, 0, 1, [6, 2, 1][at * at % 3]]);
    }
}

#[test]
fn a_bin_is_cut_before_its_place_is_judged() {
    assert_eq!(replied(&in_fault(&["BIN*3*A~C"])), (7, 5, 0));
    assert_eq!(replied(&in_fault(&["BIN*2*A~C"])), (10, 5, 2));
    assert_eq!(replied(&in_fault(&["BIN*0*A"])), (10, 5, 1));
    assert_eq!(replied(&in_fault(&["EFI*1", "BIN*3*A~C"])), (24, 5, 0));
}

#[test]
fn rewriting_reads_by_the_profile() {
    let new = Separators::new(b'|', b'^', b'\'');
    let rewritten = |text: &str, profile: Profile| {
        let (mut segments, mut levels, mut output) = (vec![7; ROOM.0], vec![8; ROOM.1], vec![b'?'; 200]);
        let input = text.as_bytes();
        let answer =
            rewrite(input, STANDARD, profile, new, &mut segments, &mut levels, &mut output).numbers();
        let read = given(input, STANDARD, (LineEnds::Strict, profile), ROOM);
        let count = SEGMENT_NUMBERS * read.records().len();
        assert_eq!(segments[..count], read.segments[..count]);
        (answer, String::from_utf8(output).unwrap().trim_end_matches('?').to_string())
    };
    let small = joined(&SMALL);
    let written = small.replace('*', "|").replace('~', "'");
    assert_eq!(rewritten(&small, Profile::Reply), ([0, 8, 3, 83], written));
    assert_eq!(rewritten(&small, Profile::Report), ([14, 7, 64, 3], String::new()));
    let foreign = in_heading(&["REF*A|B"]);
    assert_eq!(rewritten(&foreign, Profile::Reply), ([24, 3, 18, 0], String::new()));
    assert_eq!(rewritten(&foreign, Profile::Report), ([18, 3, 18, 1], String::new()));
    let marked = after_bnr(&["HL*1**I*0"]);
    assert_eq!(rewritten(&marked, Profile::Reply), ([9, 3, 18, 4], String::new()));
    assert_eq!(rewritten(&marked, Profile::Report).0[0], 0);
}

/// Reads a generated case by a profile, line ends skipped.
fn by(case: &Case, input: &[u8], profile: Profile) -> Outcome {
    let rooms = (case.segment_numbers, case.level_numbers);
    given(input, case.separators, (LineEnds::Skipped, profile), rooms)
}

/// The elements of an accepted HL.
fn elements<'a>(case: &'a Case, record: &[u64; SEGMENT_NUMBERS]) -> Vec<&'a [u8]> {
    let segment = &case.input[record[0] as usize..][..record[1] as usize];
    segment.split(|byte| *byte == case.separators.element).collect()
}

/// Holds what was accepted of a reply to the words: its rows, its levels and the bytes of its HLs.
fn held_to_the_words(case: &Case, outcome: &Outcome) {
    let hls: Vec<_> = outcome.records().iter().filter(|record| record[2] == 18).collect();
    assert!(outcome.records().iter().all(|record| ROWS.contains(&record[2])), "seed {}", case.seed);
    for (level, record) in outcome.levels.chunks(LEVEL_NUMBERS).zip(hls) {
        let code = match elements(case, record)[..] {
            [b"HL", _, b"", b"RP"] => 1,
            [b"HL", _, b"", b"I"] => 2,
            [b"HL", _, b"", b"RB"] => 6,
            ref other => panic!("seed {}: {other:?}", case.seed),
        };
        assert_eq!(level[1..], [0, 1, code], "seed {}", case.seed);
    }
}

/// The input with RP in the place of RB in every HL that was accepted.
fn without_rb(case: &Case, outcome: &Outcome) -> Vec<u8> {
    let mut input = case.input.clone();
    for record in outcome.records().iter().filter(|record| record[2] == 18) {
        if elements(case, record)[3] == b"RB" {
            input[(record[0] + record[1]) as usize - 1] = b'P';
        }
    }
    input
}

/// Holds an accepted reply to the first profile, which takes it with RP in the place of RB.
fn held_to_the_first(case: &Case, reply: &Outcome) {
    let mut report = by(case, &without_rb(case, reply), Profile::Report);
    for (code, own) in report.levels.iter_mut().zip(&reply.levels).skip(3).step_by(LEVEL_NUMBERS) {
        if (*code, *own) == (1, 6) {
            *code = 6;
        }
    }
    assert_eq!(report, *reply, "seed {}", case.seed);
}

/// Whether an accepted report is a reply as it stands.
fn is_reply(case: &Case, report: &Outcome) -> bool {
    let hl = |record: &[u64; SEGMENT_NUMBERS]| {
        let elements = elements(case, record);
        elements.len() == 4 && elements[2].is_empty()
    };
    report.records().iter().all(|record| ROWS.contains(&record[2]) && (record[2] != 18 || hl(record)))
}

#[test]
fn generated_replies_are_held_to_the_words_and_to_the_first_profile() {
    let mut came: BTreeMap<(u64, u64), usize> = BTreeMap::new();
    let (mut rows, mut of_reports) = (BTreeSet::new(), 0);
    for seed in 0..20_000 {
        let case = report(seed);
        let [report, reply] = Profile::BOTH.map(|profile| by(&case, &case.input, profile));
        held_to_the_words(&case, &reply);
        let element = if reply.answer[0] == 0 { 0 } else { reply.answer[3] };
        if case.profile == Profile::Reply {
            *came.entry((reply.answer[0], element)).or_default() += 1;
        }
        if reply.answer[0] == 0 {
            rows.extend(reply.records().iter().map(|record| record[2]));
            held_to_the_first(&case, &reply);
        }
        if report.answer[0] == 0 && is_reply(&case, &report) {
            of_reports += 1;
            assert_eq!(reply, report, "seed {seed}");
        }
        // What the first profile does not come to, the second does not either.
        assert!(
            report.answer[0] > 0 || [0, 9, 24].contains(&reply.answer[0]) || reply.answer[..2] == [14, 3]
        );
    }
    println!("{came:?}");
    println!("{of_reports} are both");
    assert_eq!(rows, BTreeSet::from(ROWS));
    for key in [(0, 0), (24, 0), (9, 2), (9, 4), (9, 5), (12, 1), (14, 3), (16, 1), (16, 2), (17, 0)] {
        assert!(came.get(&key).is_some_and(|count| *count > 5), "{key:?} came {:?} times", came.get(&key));
    }
    // Levels of a reply have no parents and no marks.
    for number in [13, 15] {
        assert!(came.keys().all(|key| key.0 != number));
    }
    assert!(!came.contains_key(&(14, 2)) && of_reports > 500);
}
