//! The fast reader against the plain one, on generated reports and replies.

use reference::generator::{report, Case};
use reference::plain::read_plain;
use reference::{read, read_hashed, rewrite, Answer, LineEnds, Separators, LONGEST, SEGMENT_NUMBERS};
use std::collections::{BTreeMap, BTreeSet};

fn tables(case: &Case) -> (Vec<u64>, Vec<u64>) {
    let segments = (0..case.segment_numbers as u64).map(|at| 700_000 + at).collect();
    let levels = (0..case.level_numbers as u64).map(|at| 800_000 + at).collect();
    (segments, levels)
}

/// What comes of a reading: the answer and both tables.
type Outcome = (Answer, Vec<u64>, Vec<u64>);

/// Reads by both readers, and with the hash; both tables must be the same to the last number.
fn both(case: &Case, line_ends: LineEnds) -> Outcome {
    let Case { input, separators, profile, .. } = case;
    let [fast, hashed, plain] = [read, read_hashed, read_plain].map(|reader| {
        let (mut segments, mut levels) = tables(case);
        let answer = reader(input, *separators, line_ends, *profile, &mut segments, &mut levels);
        (answer, segments, levels)
    });
    assert_eq!(fast, plain, "seed {}, {line_ends:?}", case.seed);
    assert_eq!(fast, hashed, "hashed, seed {}, {line_ends:?}", case.seed);
    fast
}

/// Reads by both readers, strictly too where there may be a line end, and gives what came where line ends
/// are skipped.
fn all(case: &Case) -> Outcome {
    if case.input.iter().any(|byte| b"\r\n".contains(byte)) {
        both(case, LineEnds::Strict);
    }
    both(case, LineEnds::Skipped)
}

/// Whether these bytes begin with BIN and the element separator.
fn begins_bin(bytes: &[u8], set: Separators) -> bool {
    bytes.starts_with(&[b'B', b'I', b'N', set.element])
}

const CASES: u64 = 60_000;

#[test]
fn both_readers_agree_and_every_answer_and_row_comes() {
    let mut answers: BTreeMap<(u64, u64), usize> = BTreeMap::new();
    let mut rows = BTreeSet::new();
    println!("seeds 0 to {}", CASES - 1);
    for seed in 0..CASES {
        let case = report(seed);
        let (answer, segments, _) = all(&case);
        assert!(!case.valid || matches!(answer, Answer::Accepted { .. }), "seed {seed}: {answer:?}");
        let [number, ..] = answer.numbers();
        let element = if number == 0 { 0 } else { answer.numbers()[3] };
        *answers.entry((number, element)).or_default() += 1;
        if let Answer::Accepted { segments: count, .. } = answer {
            rows.extend(segments.chunks(SEGMENT_NUMBERS).take(count).map(|record| record[2]));
        }
    }
    println!("{answers:?}");
    assert_eq!(rows, (1..=79).collect::<BTreeSet<u64>>());
    for number in (0..=17).chain([24]) {
        assert!(answers.keys().any(|key| key.0 == number), "answer {number} never came");
    }
    for key in [
        (9, 2),
        (9, 4),
        (9, 5),
        (8, 5),
        (10, 5),
        (14, 2),
        (14, 3),
        (15, 0),
        (15, 2),
        (15, 4),
        (16, 1),
        (16, 2),
    ] {
        assert!(answers.contains_key(&key), "answer {key:?} never came");
    }
}

/// The BINs that were accepted.
fn accepted_bins<'a>(case: &'a Case, answer: Answer, segments: &'a [u64]) -> Vec<&'a [u8]> {
    let count = match answer {
        Answer::Accepted { segments, .. } => segments,
        Answer::Refused { segment, .. } => segment.saturating_sub(1),
    };
    let bins = segments.chunks(SEGMENT_NUMBERS).take(count).filter(|record| record[2] == 55);
    bins.map(|record| &case.input[record[0] as usize..][..record[1] as usize]).collect()
}

#[test]
fn bins_come_in_every_way() {
    let mut refused: BTreeMap<(usize, usize), usize> = BTreeMap::new();
    let mut cut_as_before = BTreeSet::new();
    let (mut whole, mut with_terminator, mut ended_by_zeros) = (0, 0, 0);
    for seed in 0..CASES / 3 {
        let case = report(seed);
        let (answer, segments, _) = both(&case, LineEnds::Skipped);
        let bins = accepted_bins(&case, answer, &segments);
        whole += bins.len();
        with_terminator += bins.iter().filter(|bin| bin.contains(&case.separators.terminator)).count();
        let Answer::Refused { number, byte, element, .. } = answer else { continue };
        if number > 2 && begins_bin(&case.input[byte..], case.separators) {
            *refused.entry((number, element)).or_default() += 1;
            ended_by_zeros += usize::from(case.input[byte + 4..] == [b'0'; 15]);
        } else if number > 2 && case.input[byte..].starts_with(b"BIN") {
            cut_as_before.insert((number, element));
        }
    }
    println!("{whole} whole, {with_terminator} with a terminator inside; refused {refused:?}");
    println!("{ended_by_zeros} times the input ends with fifteen zeros");
    assert!(whole > 5_000 && with_terminator > 3_000 && ended_by_zeros > 2);
    // Neither 5 nor 6 looks into BIN02, and a BIN has two elements.
    assert_eq!(refused.keys().copied().collect::<Vec<_>>(), [(3, 0), (7, 0), (10, 1), (10, 2), (17, 0)]);
    assert!(cut_as_before.contains(&(4, 0)) && cut_as_before.contains(&(6, 0)));
}

#[test]
#[ignore = "a longer run, asked for by name"]
fn both_readers_agree_on_many_more() {
    for seed in 1_000_000..1_500_000 {
        all(&report(seed));
    }
}

#[test]
fn the_same_seed_gives_the_same_case() {
    for seed in 0..200 {
        assert_eq!(report(seed), report(seed));
        assert_ne!(report(seed).input, report(seed + 1).input);
    }
}

#[test]
fn both_readers_agree_with_every_room() {
    for seed in 0..400 {
        let mut case = report(seed);
        for segment_numbers in 0..SEGMENT_NUMBERS * 7 {
            for level_numbers in 0..10 {
                (case.segment_numbers, case.level_numbers) = (segment_numbers, level_numbers);
                both(&case, LineEnds::Skipped);
            }
        }
    }
}

#[test]
fn both_readers_agree_on_every_cut_and_every_changed_byte() {
    let in_lines = |case: &Case| case.valid && !case.strictly_valid;
    let reports = || (0..2000).map(report);
    let plain = reports().filter(|case| case.strictly_valid).take(12);
    for whole in plain.chain(reports().filter(in_lines).take(6)) {
        let Separators { element, component, terminator } = whole.separators;
        let odd = [0, b'0', b'1', b'A', b' ', b'.', b'-', b'X', b'\r', b'\n', 127, 128, 255];
        for at in 0..whole.input.len().min(300) {
            let mut case = whole.clone();
            case.input.truncate(at);
            all(&case);
            for byte in odd.into_iter().chain([element, component, terminator]) {
                let mut case = whole.clone();
                case.input[at] = byte;
                both(&case, LineEnds::Skipped);
            }
        }
    }
}

/// The elements of one segment, each with its components. BIN02 is one component.
fn elements(segment: &[u8], set: Separators) -> Vec<Vec<Vec<u8>>> {
    if begins_bin(segment, set) {
        return segment.splitn(3, |byte| *byte == set.element).map(|piece| vec![piece.to_vec()]).collect();
    }
    segment
        .split(|byte| *byte == set.element)
        .map(|element| element.split(|byte| *byte == set.component).map(<[u8]>::to_vec).collect())
        .collect()
}

/// The elements of all segments of an accepted report.
fn all_elements(bytes: &[u8], records: &[u64], count: usize, set: Separators) -> Vec<Vec<Vec<Vec<u8>>>> {
    let bounds =
        records.chunks(SEGMENT_NUMBERS).take(count).map(|record| (record[0] as usize, record[1] as usize));
    bounds.map(|(start, length)| elements(&bytes[start..start + length], set)).collect()
}

/// Whether a byte of these elements, BIN02 left out, is one of the set.
fn collides(segments: &[Vec<Vec<Vec<u8>>>], set: Separators) -> bool {
    let looked_at = segments.iter().flat_map(|elements| {
        let looked_at = if elements[0] == [b"BIN"] { 2 } else { elements.len() };
        &elements[..looked_at]
    });
    looked_at.flatten().flatten().any(|byte| set.holds(*byte))
}

/// Rewrites, checks tables and output against the reading, and gives the answer.
fn rewritten(case: &Case) -> Answer {
    let (reading, segments, levels) = both(case, LineEnds::Strict);
    let (mut own_segments, mut own_levels) = tables(case);
    let before: Vec<u8> = (0..case.output_length).map(|at| (at * 7 + 3) as u8).collect();
    let mut output = before.clone();
    let Case { input, separators, profile, new, .. } = case;
    let answer = rewrite(input, *separators, *profile, *new, &mut own_segments, &mut own_levels, &mut output);
    let [number, _, _, element] = answer.numbers();
    if number != 0 {
        assert_eq!(output, before);
    }
    if number == 1 {
        assert_eq!((own_segments, own_levels), tables(case));
        assert_eq!(element, u64::from(case.separators.fit()));
        assert!(!case.separators.fit() || !case.new.fit());
        return answer;
    }
    assert_eq!((&own_segments, &own_levels), (&segments, &levels), "seed {}", case.seed);
    let Answer::Accepted { segments: count, bytes, .. } = reading else {
        assert_eq!(answer, reading);
        return answer;
    };
    let elements = all_elements(&case.input, &segments, count, case.separators);
    let collides = collides(&elements, case.new);
    match number {
        18 => assert!(collides),
        19 => assert!(!collides && case.output_length < bytes && answer.numbers() == [19, 0, 0, 0]),
        _ => {
            assert!(!collides && case.output_length >= bytes && answer == reading);
            assert_eq!(elements, all_elements(&output, &segments, count, case.new));
            assert_eq!(output[bytes..], before[bytes..]);
            assert!(case.new != case.separators || output[..bytes] == case.input[..bytes]);
            let again = Case { input: output[..bytes].to_vec(), separators: case.new, ..case.clone() };
            assert_eq!(both(&again, LineEnds::Strict), (reading, segments, levels), "seed {}", case.seed);
        }
    }
    answer
}

#[test]
fn rewriting_keeps_its_laws() {
    let mut came = BTreeMap::new();
    for seed in 0..20_000 {
        let [number, _, _, element] = rewritten(&report(seed)).numbers();
        *came.entry((number, if number == 0 { 0 } else { element.min(3) })).or_insert(0) += 1;
    }
    println!("{came:?}");
    for key in [(0, 0), (1, 0), (1, 1), (18, 1), (18, 2), (18, 3), (19, 0)] {
        assert!(came.contains_key(&key), "{key:?} never came");
    }
    // A tag has only letters and digits, which no separator is.
    assert!(!came.contains_key(&(18, 0)));
}

/// Where the segment ends that starts at this byte: behind its terminator. A BIN ends at the first byte
/// with which its answer is no longer 3.
fn end_of_segment(case: &Case, start: usize) -> usize {
    let rest = &case.input[start..];
    if !begins_bin(rest, case.separators) {
        return start + rest.iter().position(|byte| *byte == case.separators.terminator).unwrap() + 1;
    }
    let ended = |end: &usize| {
        let cut = Case { input: case.input[..*end].to_vec(), ..case.clone() };
        both(&cut, LineEnds::Skipped).0.numbers()[0] != 3
    };
    (start..=case.input.len()).find(ended).unwrap()
}

#[test]
fn a_refusal_stands_whatever_follows_and_with_more_room() {
    for seed in 0..4000 {
        let case = report(seed);
        let (answer, ..) = both(&case, LineEnds::Skipped);
        let [number, ..] = answer.numbers();
        let fault = (4..=16).contains(&number) || number == 0 || number == 24;
        if !fault || case.input.len() > 10_000 {
            continue;
        }
        let end = match answer {
            Answer::Accepted { bytes, .. } => bytes,
            Answer::Refused { byte, .. } => end_of_segment(&case, byte),
        };
        for tail in [&b""[..], b"~", b"\r\n", b"SE*4*0001~", b"\0\xFF garbage"] {
            let mut other = case.clone();
            other.input.truncate(end);
            other.input.extend_from_slice(tail);
            other.segment_numbers += 7;
            other.level_numbers += 9;
            assert_eq!(both(&other, LineEnds::Skipped).0, answer, "seed {seed}");
        }
    }
}

#[test]
fn the_limit_is_the_whole_lent_input() {
    let valid = (0..).map(report).find(|case| case.valid).unwrap();
    for (length, accepted) in [(LONGEST, true), (LONGEST + 1, false)] {
        let mut case = valid.clone();
        case.input.resize(length, b'X');
        let (answer, segments, levels) = all(&case);
        assert_eq!(matches!(answer, Answer::Accepted { .. }), accepted);
        if !accepted {
            assert_eq!(answer.numbers(), [2, 0, 0, 0]);
            assert_eq!((segments, levels), tables(&case));
        }
    }
}
