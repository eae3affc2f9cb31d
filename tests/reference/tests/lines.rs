//! Line ends between segments (document 02, Item 3): corners by hand, every short word behind a terminator,
//! and generated reports held to what a strict reading says of them without the skipped bytes.

mod both;
mod words;

use both::{given, Outcome};
use reference::generator::{report, Case};
use reference::vectors::text::{joined, written_with, W1};
use reference::{rewrite, Answer, LineEnds, Profile, Separators, SEGMENT_NUMBERS};
use std::collections::BTreeMap;
use words::words;

const STANDARD: Separators = Separators::STANDARD;
const REPORT: Profile = Profile::Report;

/// How many numbers the tables have where that is more than enough.
const ROOM: (usize, usize) = (SEGMENT_NUMBERS * 20, 12);

/// The starts and lengths of the segments that were accepted.
fn accepted(outcome: &Outcome) -> Vec<(usize, usize)> {
    outcome.records().iter().map(|record| (record[0] as usize, record[1] as usize)).collect()
}

/// The answers by both choices with the standard separators and room enough: skipped, strict.
fn answers(text: &str) -> [[u64; 4]; 2] {
    LineEnds::BOTH.map(|line_ends| given(text.as_bytes(), STANDARD, (line_ends, REPORT), ROOM).answer)
}

/// How many bytes are skipped behind a terminator: the longest of CR LF, CR and LF that stands there and
/// has no separator in it.
fn skipped(rest: &[u8], set: Separators) -> usize {
    let skips = |end: &&[u8]| rest.starts_with(end) && !end.iter().any(|byte| set.holds(*byte));
    [&b"\r\n"[..], b"\r", b"\n"].iter().copied().find(skips).map_or(0, <[u8]>::len)
}

/// Reads with line ends skipped and holds what comes to the words: between two segments exactly what is
/// to be skipped is left out, and without it a strict reading gives the same but for the starts.
fn held_to_the_words(input: &[u8], set: Separators, profile: Profile, rooms: (usize, usize)) -> Outcome {
    let outcome = given(input, set, (LineEnds::Skipped, profile), rooms);
    let told = || format!("{} {set:?}", input.escape_ascii());
    let [number, _, refused_at, _] = outcome.answer;
    let mut expected = outcome.clone();
    let mut without = Vec::new();
    let mut end = None;
    for (at, (start, length)) in accepted(&outcome).into_iter().enumerate() {
        let due = end.map_or(0, |end| end + skipped(&input[end..], set));
        assert_eq!(start, due, "{}", told());
        expected.segments[SEGMENT_NUMBERS * at] = without.len() as u64;
        without.extend_from_slice(&input[start..start + length + 1]);
        end = Some(start + length + 1);
    }
    if number == 0 {
        expected.answer[3] = without.len() as u64;
    } else if number > 2 {
        let due = end.map_or(0, |end| end + skipped(&input[end..], set));
        assert_eq!(refused_at, due as u64, "{}", told());
        expected.answer[2] = without.len() as u64;
        without.extend_from_slice(&input[due..]);
    } else {
        without.extend_from_slice(input);
    }
    assert_eq!(given(&without, set, (LineEnds::Strict, profile), rooms), expected, "{}", told());
    outcome
}

/// W1 with this behind each of its segments.
fn w1_in_lines(end: &str) -> String {
    W1.iter().map(|segment| format!("{segment}~{end}")).collect()
}

#[test]
fn line_ends_behind_each_segment_of_w1() {
    for end in ["\r\n", "\n", "\r", ""] {
        let text = w1_in_lines(end);
        let outcome = held_to_the_words(text.as_bytes(), STANDARD, REPORT, (SEGMENT_NUMBERS * 7, 8));
        let length = end.len() as u64;
        assert_eq!(outcome.answer, [0, 7, 2, 78 + 6 * length]);
        let starts: Vec<u64> = outcome.segments.chunks(SEGMENT_NUMBERS).map(|record| record[0]).collect();
        let expected: Vec<u64> =
            (0..).zip([0, 12, 32, 43, 54, 60, 68]).map(|(before, start)| start + before * length).collect();
        assert_eq!(starts, expected);
        assert_eq!(outcome.levels, [3, 0, 1, 1, 4, 1, 2, 2]);
        let strictly = if end.is_empty() { [0, 7, 2, 78] } else { [5, 2, 12, 0] };
        assert_eq!(answers(&text)[1], strictly);
    }
}

#[test]
fn a_line_end_has_at_most_one_cr_and_then_at_most_one_lf() {
    for (end, skipped) in
        [("\n\r", 1), ("\r\r\n", 1), ("\n\n", 1), ("\r\r", 1), ("\r\n\r\n", 2), ("\r\n\n", 2), ("\r\n\r", 2)]
    {
        assert_eq!(answers(&w1_in_lines(end)), [[5, 2, 12 + skipped, 0], [5, 2, 12, 0]], "{end:?}");
        // 3 comes first.
        assert_eq!(answers(&format!("ST*842*0001~{end}")), [[3, 2, 12 + skipped, 0], [3, 2, 12, 0]]);
    }
    // Other blank bytes are no line end.
    for end in [" ", "\t", "\x0B", "\x0C", "\0"] {
        let number = if end == " " { 4 } else { 5 };
        assert_eq!(answers(&w1_in_lines(end)), [[number, 2, 12, 0]; 2], "{end:?}");
    }
}

#[test]
fn nothing_is_skipped_before_the_first_segment_or_behind_se() {
    for end in ["\r\n", "\n", "\r"] {
        assert_eq!(answers(&(end.to_string() + &joined(&W1))), [[5, 1, 0, 0]; 2]);
        assert_eq!(answers(&(joined(&W1) + end)), [[0, 7, 2, 78]; 2]);
        assert_eq!(answers(end), [[3, 1, 0, 0]; 2]);
        assert_eq!(answers(&format!("{end}~")), [[5, 1, 0, 0]; 2]);
    }
}

#[test]
fn refusals_start_behind_the_line_end() {
    let strict = [5, 2, 12, 0];
    for (behind_st, skipping, strictly) in [
        ("", [3, 2, 14, 0], [3, 2, 12, 0]),
        ("BNR*1", [3, 2, 14, 0], [3, 2, 12, 0]),
        ("~", [4, 2, 14, 0], strict),
        ("XX*1~", [4, 2, 14, 0], strict),
        (" BNR*1~", [4, 2, 14, 0], strict),
        ("\rBNR*1~", [5, 2, 14, 0], strict),
        ("BNR*1\r\n~", [5, 2, 14, 1], strict),
        ("BNR~", [6, 2, 14, 0], strict),
        ("BNR*1*~", [6, 2, 14, 2], strict),
        ("ST*842*0001~", [7, 2, 14, 0], strict),
        ("BIN*1*A~", [7, 2, 14, 0], strict),
        ("BIN*A", [10, 2, 14, 1], [3, 2, 12, 0]),
        ("BIN*1*\r\n~", [10, 2, 14, 2], strict),
        ("BIN*1*\r", [3, 2, 14, 0], [3, 2, 12, 0]),
        ("BNR*1~\r\nN1*SU~", [11, 3, 22, 2], strict),
        ("BNR*1~\r\nHL*1**I~\r\nSE*5*0001~", [16, 4, 32, 1], strict),
    ] {
        let text = format!("ST*842*0001~\r\n{behind_st}");
        assert_eq!(answers(&text), [skipping, strictly], "{behind_st:?}");
    }
}

#[test]
fn line_ends_around_and_within_a_bin() {
    let before = "ST*842*0001~BNR*1~HL*1**I~NCD*1~EFI*1~";
    for end in ["\r\n", "\n", "\r"] {
        let length = end.len() as u64;
        let text = format!("{before}{end}BIN*4*~\r\n~~{end}SE*7*0001~");
        assert_eq!(answers(&text), [[0, 7, 1, 59 + 2 * length], [5, 6, 38, 0]]);
        let outcome = held_to_the_words(text.as_bytes(), STANDARD, REPORT, (SEGMENT_NUMBERS * 7, 4));
        assert_eq!(
            outcome.segments[SEGMENT_NUMBERS * 5..],
            [38 + length, 10, 55, 1, 49 + 2 * length, 9, 79, 0]
        );
        let inside = format!("{before}BIN*{length}*{end}~SE*7*0001~");
        assert_eq!(answers(&inside), [[0, 7, 1, 55 + length]; 2]);
        // The terminator is due behind BIN02, not a line end.
        assert_eq!(answers(&format!("{before}BIN*1*A{end}~SE*7*0001~")), [[10, 6, 38, 2]; 2]);
        assert_eq!(answers(&format!("{before}BIN*1{end}*A~SE*7*0001~")), [[10, 6, 38, 1]; 2]);
        assert_eq!(answers(&format!("{before}BIN{end}*1*A~SE*7*0001~")), [[5, 6, 38, 0]; 2]);
    }
    // With a byte left over it is no BIN: cut at the first terminator.
    let text = format!("{before}\n\rBIN*1*~~");
    assert_eq!(answers(&text), [[5, 6, 39, 0], [5, 6, 38, 0]]);
}

#[test]
fn room_is_asked_for_behind_the_line_end() {
    let text = w1_in_lines("\r\n");
    for (whole, start) in [0, 14, 36, 49, 62, 70, 80].into_iter().enumerate() {
        let outcome =
            held_to_the_words(text.as_bytes(), STANDARD, REPORT, (SEGMENT_NUMBERS * (whole + 1) - 1, 8));
        assert_eq!(outcome.answer, [17, whole as u64 + 1, start, 0]);
    }
    assert_eq!(
        held_to_the_words(text.as_bytes(), STANDARD, REPORT, (SEGMENT_NUMBERS * 7, 4)).answer,
        [17, 4, 49, 0]
    );
}

#[test]
fn a_separator_is_no_line_end() {
    // Terminator CR: the LF behind it is skipped, a second CR is not.
    let cr = Separators::new(b'*', b':', b'\r');
    let ends = |text: &str, set| {
        LineEnds::BOTH.map(|line_ends| given(text.as_bytes(), set, (line_ends, REPORT), ROOM).answer)
    };
    let report = "ST*842*0001\r\nBNR*1\r\nHL*1**I\r\nSE*4*0001\r\n";
    assert_eq!(ends(report, cr), [[0, 4, 1, 39], [5, 2, 12, 0]]);
    assert_eq!(ends(&report.replace('\n', ""), cr), [[0, 4, 1, 36]; 2]);
    assert_eq!(ends(&report.replace('\n', "\r"), cr), [[4, 2, 12, 0]; 2]);
    // Terminator LF: the CR before it belongs to its segment, one behind it is skipped.
    let lf = Separators::new(b'*', b':', b'\n');
    assert_eq!(ends(report, lf), [[5, 1, 0, 2]; 2]);
    assert_eq!(ends(&report.replace("\r\n", "\n\r"), lf), [[0, 4, 1, 39], [5, 2, 12, 0]]);
    assert_eq!(ends("ST*842*0001\n\r\n", lf), [[4, 2, 13, 0], [5, 2, 12, 0]]);
    // Element separator CR: it opens the next segment, whose tag is empty; an LF is skipped.
    let element = Separators::new(b'\r', b':', b'~');
    assert_eq!(ends("ST\r842\r0001~\rBNR\r1~", element), [[4, 2, 12, 0]; 2]);
    assert_eq!(ends("ST\r842\r0001~\r\nBNR\r1~", element), [[5, 2, 12, 1]; 2]);
    assert_eq!(ends("ST\r842\r0001~\nBNR\r1~", element), [[3, 3, 19, 0], [5, 2, 12, 0]]);
    // Component separator LF: a CR is skipped, the LF stands in the tag.
    let component = Separators::new(b'*', b'\n', b'~');
    assert_eq!(ends("ST*842*0001~\r\nBNR*1~", component), [[4, 2, 13, 0], [5, 2, 12, 0]]);
    // Both are separators: nothing is skipped.
    let both = Separators::new(b'*', b'\r', b'\n');
    assert_eq!(ends("ST*842*0001\n\rBNR*1\n", both), [[4, 2, 12, 0]; 2]);
}

/// A short report with a BIN in these separators, with the word behind ST, with the word behind the BIN, and
/// with nothing behind the word.
fn with_word(set: Separators, word: &[u8]) -> [Vec<u8>; 3] {
    let st = &written_with("ST*842*0001~", set)[..];
    let to_bin = &written_with("BNR*1~HL*1**I~NCD*1~EFI*1~BIN*4*\r\n~*~", set)[..];
    let se = &written_with("SE*7*0001~", set)[..];
    [[st, word, to_bin, se].concat(), [st, to_bin, word, se].concat(), [st, word].concat()]
}

#[test]
fn every_short_word_behind_a_terminator() {
    let mut came: BTreeMap<u64, usize> = BTreeMap::new();
    let sets = [
        (*b"*:~", 5),
        (*b"\r:~", 4),
        (*b"\n:~", 4),
        (*b"*\r~", 4),
        (*b"*\n~", 4),
        (*b"*:\r", 4),
        (*b"*:\n", 4),
        (*b"\r:\n", 4),
        (*b"\n\r~", 4),
        (*b"*\n\r", 4),
    ];
    for ([element, component, terminator], longest) in sets {
        let set = Separators::new(element, component, terminator);
        for word in words(&[b'\r', b'\n', terminator, element, b'S', b'T'], longest) {
            for input in with_word(set, &word) {
                let outcome = held_to_the_words(&input, set, REPORT, ROOM);
                *came.entry(outcome.answer[0]).or_default() += 1;
            }
        }
    }
    println!("{came:?}");
    assert_eq!(came.keys().copied().collect::<Vec<u64>>(), [0, 3, 4, 5, 6, 7]);
    assert!(came[&0] > 30);
}

/// The answer of a generated case with line ends skipped, and strictly.
fn by_both(case: &Case) -> [Outcome; 2] {
    let rooms = (case.segment_numbers, case.level_numbers);
    let strictly = given(&case.input, case.separators, (LineEnds::Strict, case.profile), rooms);
    [held_to_the_words(&case.input, case.separators, case.profile, rooms), strictly]
}

const CASES: u64 = 12_000;

#[test]
fn generated_reports_are_held_to_the_words() {
    let (mut with_separator, mut undamaged) = (0, 0);
    let mut told_apart: BTreeMap<u64, usize> = BTreeMap::new();
    for seed in 0..CASES {
        let case = report(seed);
        let [skipping, strictly] = by_both(&case);
        if !case.input.iter().any(|byte| b"\r\n".contains(byte)) {
            assert_eq!(skipping, strictly, "seed {seed}");
        }
        assert!(!case.valid || skipping.answer[0] == 0, "seed {seed}");
        assert!(!case.strictly_valid || strictly == skipping, "seed {seed}");
        if case.valid && !case.strictly_valid {
            undamaged += 1;
            assert_eq!((strictly.answer[0], strictly.answer[3]), (5, 0), "seed {seed}");
        }
        with_separator +=
            usize::from(case.separators.fit() && b"\r\n".iter().any(|byte| case.separators.holds(*byte)));
        if skipping != strictly {
            *told_apart.entry(skipping.answer[0]).or_default() += 1;
        }
    }
    println!("told apart by line ends {told_apart:?}");
    println!("{undamaged} undamaged, {with_separator} with CR or LF as a separator");
    assert!(
        (2_000..4_000).contains(&told_apart.values().sum::<usize>())
            && undamaged > 400
            && with_separator > 500
    );
    for number in [0, 3, 4, 5, 6, 7, 8, 9, 10, 11, 12, 13, 14, 15, 16, 17, 24] {
        assert!(told_apart.contains_key(&number), "answer {number} never came behind a line end");
    }
}

/// What stands between each accepted segment and the next, which is accepted or refused, and the tag of the
/// segments on both sides.
fn between<'a>(case: &'a Case, outcome: &Outcome) -> Vec<[&'a [u8]; 3]> {
    let mut bounds: Vec<(usize, usize)> =
        accepted(outcome).iter().map(|(start, length)| (*start, start + length + 1)).collect();
    if outcome.answer[0] > 2 {
        let at = outcome.answer[2] as usize;
        bounds.push((at, at));
    }
    let input = &case.input;
    let tag = |start: usize| &input[start..input.len().min(start + 3)];
    bounds.windows(2).map(|two| [tag(two[0].0), &input[two[0].1..two[1].0], tag(two[1].0)]).collect()
}

#[test]
fn line_ends_come_at_every_place() {
    let mut came: BTreeMap<&str, usize> = BTreeMap::new();
    for seed in 0..CASES {
        let case = report(seed);
        let (set, rooms) = (case.separators, (case.segment_numbers, case.level_numbers));
        let outcome = given(&case.input, set, (LineEnds::Skipped, case.profile), rooms);
        let between = between(&case, &outcome);
        let used = if outcome.answer[0] == 0 { outcome.answer[3] as usize } else { case.input.len() };
        let bad = match outcome.answer {
            [5, _, byte, _] => &case.input[byte as usize..],
            _ => &[],
        };
        for (place, here) in [
            ("CR LF", between.iter().any(|[_, end, _]| *end == b"\r\n")),
            ("LF", between.iter().any(|[_, end, _]| *end == b"\n")),
            ("CR", between.iter().any(|[_, end, _]| *end == b"\r")),
            ("before a BIN", between.iter().any(|[_, end, tag]| !end.is_empty() && *tag == b"BIN")),
            ("behind a BIN", between.iter().any(|[tag, end, _]| !end.is_empty() && *tag == b"BIN")),
            ("before ST", case.input.starts_with(b"\r") || case.input.starts_with(b"\n")),
            ("behind SE", case.input[used..].starts_with(b"\r\n")),
            ("left over", bad.starts_with(b"\r") || bad.starts_with(b"\n")),
            ("as a terminator", set.fit() && b"\r\n".contains(&set.terminator)),
            ("within a segment", outcome.answer[3] > 0 && bad.contains(&b'\n')),
        ] {
            *came.entry(place).or_default() += usize::from(here);
        }
    }
    println!("{came:?}");
    for (place, count) in came {
        assert!(count > 20, "{place} came {count} times");
    }
}

#[test]
fn rewriting_reads_strictly() {
    let new = Separators::new(b'|', b'^', b'\'');
    let rewritten = |text: &str| {
        let (mut segments, mut levels, mut output) = (vec![7; ROOM.0], vec![8; ROOM.1], vec![b'?'; 200]);
        let answer = rewrite(text.as_bytes(), STANDARD, REPORT, new, &mut segments, &mut levels, &mut output);
        let touched = output.iter().any(|byte| *byte != b'?');
        (answer, touched)
    };
    for end in ["\r\n", "\n", "\r"] {
        let refused = Answer::Refused { number: 5, segment: 2, byte: 12, element: 0 };
        assert_eq!(rewritten(&w1_in_lines(end)), (refused, false));
        let accepted = Answer::Accepted { segments: 7, levels: 2, bytes: 78 };
        assert_eq!(rewritten(&(joined(&W1) + end)), (accepted, true));
    }
}

#[test]
fn the_default_is_to_skip() {
    assert_eq!(LineEnds::default(), LineEnds::Skipped);
}
