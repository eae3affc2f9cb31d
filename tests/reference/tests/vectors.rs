//! The vectors keep their limits, say what the paper says, and read back to the same text.

mod plainly;
mod walking;

use reference::plain::{number_plain, read_plain};
use reference::vectors::{generated, groups, Case, How, FILE_BYTES, OUTPUT_BYTES, TABLE_NUMBERS};
use reference::{rewrite, LineEnds, Profile, Separators, LEVEL_NUMBERS};
use std::cmp::Ordering;
use std::collections::BTreeSet;
use walking::{numbers_of, walk_plainly};

#[test]
fn told_answers_are_given() {
    let mut told_count = 0;
    for group in groups() {
        for (at, told) in group.cases.iter().enumerate() {
            let mut printed = String::new();
            told.case.print(&mut printed);
            if let Some(answer) = told.answer {
                told_count += 1;
                let line = answer.map(|number| number.to_string());
                // A walk has two numbers.
                let walk = matches!(told.case, Case::Walk { .. });
                let line = if walk { line[..2].join(" ") } else { line.join(" ") };
                let case = format!("{} case {at}: {:?}", group.name, told.case);
                assert_eq!(printed.lines().next(), Some(line.as_str()), "{case}");
            }
        }
    }
    println!("{told_count} told answers");
}

#[test]
fn names_and_limits() {
    let names: Vec<String> = groups().into_iter().map(|group| group.name).collect();
    assert_eq!(
        names,
        [
            "answers", "astray", "attached", "bounds", "levels", "lines", "long", "lookups", "numbers",
            "pairs", "quantities", "replies", "replyrows", "rewriting", "rooms", "rowsa", "rowsb", "rowsc",
            "rowsd", "separators", "truncated", "walks", "worked"
        ]
    );
    let mut names: Vec<String> = Vec::new();
    for group in groups().into_iter().chain(generated(0, 2000)) {
        let size = group.file().len();
        println!("{}: {} cases, {size} bytes", group.name, group.cases.len());
        assert!(size < FILE_BYTES, "{} has {size} bytes", group.name);
        assert!(group.name.bytes().all(|byte| byte.is_ascii_lowercase()));
        let fits = |rooms: (usize, usize)| rooms.0 <= TABLE_NUMBERS && rooms.1 <= TABLE_NUMBERS;
        for told in &group.cases {
            match told.case {
                Case::Read { rooms, .. } | Case::Long { rooms, .. } => assert!(fits(rooms)),
                Case::Rewrite { rooms, output, .. } => assert!(fits(rooms) && output <= OUTPUT_BYTES),
                Case::Walk { ref levels, output, .. } => assert!(fits((levels.len(), output))),
                Case::Lookup { .. } | Case::Number { .. } => {}
            }
        }
        if group.name.starts_with("generated") {
            assert!(names.iter().all(|name| *name < group.name));
            names.push(group.name);
        }
    }
}

/// Takes a number of so many bytes, the lowest first.
fn number(bytes: &[u8]) -> usize {
    bytes.iter().rev().fold(0, |number, byte| number << 8 | usize::from(*byte))
}

fn line(name: &str, numbers: impl Iterator<Item = u64>) -> String {
    let numbers: String = numbers.map(|number| format!(" {number}")).collect();
    format!("{name}{numbers}\n")
}

/// What a program prints for a lookup, a number check or a walk, with plain ones; nothing for any other kind.
fn looked_up(header: &[u8], input: &[u8]) -> Option<String> {
    let (first, second) = (number(&header[7..9]), number(&header[9..11]));
    let printed = match header[0] {
        3 => {
            assert_eq!(header[3..7], [0; 4]);
            let (start, length) = plainly::lookup(input, header[1], header[2], first, second);
            format!("span {start} {length}\n")
        }
        5 => {
            assert_eq!(header[1..7], [0; 6]);
            let numbers = number_plain(input, first, second).numbers();
            format!("number {}\n", numbers.map(|number| number.to_string()).join(" "))
        }
        7 => {
            assert_eq!(header[1..7], [0; 6]);
            let mut output: Vec<u64> = (900_000..).take(second).collect();
            let [answer, level] = walk_plainly(&numbers_of(input), first as u64, &mut output);
            format!("{answer} {level}\n") + &line("order", output.into_iter())
        }
        _ => return None,
    };
    assert_eq!(header[11..13], [0; 2]);
    Some(printed)
}

/// What a program prints for a file, with the plain reader.
fn played(name: &str, mut file: &[u8]) -> String {
    let mut out = format!("file {name}\n");
    while !file.is_empty() {
        let (header, rest) = file.split_at(16);
        let (input, rest) = rest.split_at(number(&header[13..16]));
        file = rest;
        let old = Separators::new(header[1], header[2], header[3]);
        let new = Separators::new(header[4], header[5], header[6]);
        let asked = number(&header[11..13]);
        if let Some(printed) = looked_up(header, input) {
            out += &printed;
            continue;
        }
        let mut segments: Vec<u64> = (0..number(&header[7..9]) as u64).map(|at| 700_000 + at).collect();
        let mut levels: Vec<u64> = (0..number(&header[9..11]) as u64).map(|at| 800_000 + at).collect();
        let mut output: Vec<u8> = (0..asked).map(|at| ((at * 7 + 3) % 256) as u8).collect();
        let line_ends = if header[11] % 2 == 1 { LineEnds::Strict } else { LineEnds::Skipped };
        let profile = if header[11] / 2 % 2 == 1 { Profile::Reply } else { Profile::Report };
        assert!([2, 6].contains(&header[0]) || header[12] == 0);
        let answer = match header[0] {
            1 => {
                assert_eq!(header[4..7], [0; 3]);
                read_plain(input, old, line_ends, profile, &mut segments, &mut levels)
            }
            2 | 6 => {
                let profile = if header[0] == 6 { Profile::Reply } else { Profile::Report };
                plainly::rewrite(input, old, profile, new, &mut segments, &mut levels, &mut output)
            }
            4 => {
                let behind = vec![b'~'; number(&header[4..7]) - input.len()];
                let input = [input, &behind].concat();
                read_plain(&input, old, line_ends, profile, &mut segments, &mut levels)
            }
            kind => panic!("no kind {kind}"),
        };
        out += &answer.numbers().map(|number| number.to_string()).join(" ");
        out += "\n";
        out += &line("segments", segments.into_iter());
        out += &line("levels", levels.into_iter());
        if [2, 6].contains(&header[0]) {
            out += &line("output", output.into_iter().map(u64::from));
        }
    }
    out
}

#[test]
fn files_read_back_and_the_plain_reader_prints_the_same() {
    for group in groups().into_iter().chain(generated(0, 2000)) {
        let mut printed = String::new();
        group.print(&mut printed);
        assert_eq!(played(&group.name, &group.file()), printed);
    }
}

#[test]
fn the_rows_files_have_every_row_and_tag() {
    let cases: usize =
        groups().iter().filter(|group| group.name.starts_with("rows")).map(|group| group.cases.len()).sum();
    // Every tag before ST and after each of the rows 1 to 78; after SE nothing is looked at.
    assert_eq!(cases, 79 * 34);
}

#[test]
fn plain_rewriting_agrees_on_generated_reports() {
    for seed in 0..8000 {
        let case = reference::generator::report(seed);
        let lent = || {
            let segments: Vec<u64> = (0..case.segment_numbers as u64).collect();
            let levels: Vec<u64> = (0..case.level_numbers as u64).collect();
            (segments, levels, vec![0xA5; case.output_length])
        };
        let (mut a, mut b) = (lent(), lent());
        let (input, old, profile, new) = (&case.input, case.separators, case.profile, case.new);
        let fast = rewrite(input, old, profile, new, &mut a.0, &mut a.1, &mut a.2);
        let plain = plainly::rewrite(input, old, profile, new, &mut b.0, &mut b.1, &mut b.2);
        assert_eq!((fast, a), (plain, b), "seed {seed}");
    }
}

#[test]
fn the_answers_file_has_every_answer_of_a_reading_with_each_of_its_elements() {
    let group = groups().into_iter().find(|group| group.name == "answers").unwrap();
    let came: BTreeSet<(u64, u64)> = group
        .cases
        .iter()
        .filter_map(|told| told.answer)
        .map(|answer| (answer[0], if answer[0] == 0 { 0 } else { answer[3] }))
        .collect();
    let mut wanted = vec![(0, 0), (1, 0), (3, 0), (4, 0), (6, 0), (7, 0), (12, 1), (13, 2)];
    wanted.extend([(14, 2), (14, 3), (15, 0), (15, 2), (15, 4), (16, 1), (16, 2), (17, 0)]);
    wanted.extend((0..=5).map(|element| (5, element)));
    wanted.extend((1..=5).map(|element| (6, element)));
    wanted.extend([3, 5, 6, 7, 32].map(|element| (9, element)));
    wanted.extend([1, 2, 3, 5].map(|element| (8, element)));
    wanted.extend((1..=31).map(|element| (10, element)));
    wanted
        .extend([2, 3, 4, 5, 6, 8, 10, 12, 14, 16, 18, 20, 22, 24, 26, 28, 30].map(|element| (11, element)));
    assert_eq!(came, wanted.into_iter().collect());
}

#[test]
fn the_replies_files_have_every_answer_of_a_reply_and_every_row_that_it_has() {
    let groups = groups();
    let group = |name: &str| groups.iter().find(|group| group.name == name).unwrap();
    let mut came = BTreeSet::new();
    let mut rewritten = BTreeSet::new();
    for told in &group("replies").cases {
        match told.case {
            Case::Read { how, .. } | Case::Long { how, .. } if how.profile() == Profile::Reply => {
                came.extend(told.answer.map(|answer| (answer[0], if answer[0] == 0 { 0 } else { answer[3] })))
            }
            Case::Rewrite { profile: Profile::Reply, .. } => {
                rewritten.extend(told.answer.map(|answer| answer[0]))
            }
            _ => {}
        }
    }
    let numbers: BTreeSet<u64> = came.iter().map(|(number, _)| *number).collect();
    let wanted = (0..=12).chain([14, 16, 17, 24]).collect();
    assert_eq!(numbers, wanted);
    for key in [(9, 2), (9, 4), (9, 5), (14, 3), (16, 1), (16, 2), (24, 0)] {
        assert!(came.contains(&key), "no case with {key:?}");
    }
    assert_eq!(rewritten, [0, 1, 5, 9, 12, 14, 17, 18, 19, 24].into());
    // Every tag before ST and after each of twenty rows; after SE nothing is looked at.
    assert_eq!(group("replyrows").cases.len(), 21 * 34);
}

#[test]
fn the_lines_file_has_every_answer_by_the_default_and_every_way_to_say_how() {
    let group = groups().into_iter().find(|group| group.name == "lines").unwrap();
    let (mut numbers, mut read, mut long) = (BTreeSet::new(), BTreeSet::new(), BTreeSet::new());
    for told in &group.cases {
        let (how, come) = match told.case {
            Case::Read { how, .. } => (how, &mut read),
            Case::Long { how, .. } => (how, &mut long),
            _ => continue,
        };
        come.insert(how.0);
        if how == How::DEFAULT {
            numbers.extend(told.answer.map(|answer| answer[0]));
        }
    }
    assert_eq!(numbers, (0..=17).collect());
    for how in [0, 1, 2, 254, 255] {
        assert!(read.contains(&how) && long.contains(&how), "no case with {how}");
    }
}

#[test]
fn the_walks_file_has_every_answer_with_every_kind_of_count_and_output() {
    let group = groups().into_iter().find(|group| group.name == "walks").unwrap();
    let mut came = BTreeSet::new();
    for told in &group.cases {
        let Case::Walk { levels, count, output } = &told.case else { panic!("no walk: {:?}", told.case) };
        let Some([number, level, ..]) = told.answer else { continue };
        let kind = match (number, level as usize) {
            (20, 0) => "no room",
            (20, 1) => "the first is unfit",
            (20, level) if level == *count => "the last is unfit",
            (20, _) => "one between is unfit",
            (21, 0) => "a short output",
            _ => "walked",
        };
        came.insert((kind, "output", output.cmp(count)));
        came.insert((kind, "count", count.cmp(&(levels.len() / LEVEL_NUMBERS))));
        if *output == 0 {
            came.insert((kind, "empty output", Ordering::Equal));
        }
        if levels.len() % LEVEL_NUMBERS != 0 {
            came.insert((kind, "part of a record", Ordering::Equal));
        }
    }
    let (less, equal, greater) = (Ordering::Less, Ordering::Equal, Ordering::Greater);
    let mut wanted: BTreeSet<(&str, &str, Ordering)> = BTreeSet::new();
    for unfit in ["the first is unfit", "one between is unfit", "the last is unfit"] {
        wanted.extend([less, equal, greater].map(|order| (unfit, "output", order)));
        wanted.extend([less, equal].map(|order| (unfit, "count", order)));
        wanted.extend(["empty output", "part of a record"].map(|kind| (unfit, kind, equal)));
    }
    wanted.extend([less, equal, greater].map(|order| ("no room", "output", order)));
    wanted.extend([
        ("no room", "count", greater),
        ("walked", "output", equal),
        ("walked", "output", greater),
    ]);
    wanted.extend([less, equal].map(|order| ("walked", "count", order)));
    wanted.insert(("a short output", "output", less));
    wanted.extend([less, equal].map(|order| ("a short output", "count", order)));
    for answer in ["no room", "walked", "a short output"] {
        wanted.extend(["empty output", "part of a record"].map(|kind| (answer, kind, equal)));
    }
    assert_eq!(came, wanted);
}
