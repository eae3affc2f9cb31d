//! The outline of a report has the form that is asked for, and tells of every level once, under its parent.

use reference::listing::listing;
use reference::outline::outline;
use reference::reports::{reports, Report};
use reference::vectors::text::{after_bnr, joined, w1_with, W1};
use std::collections::BTreeSet;

/// Levels behind other branches: a component under the first item behind the second, a characteristic under
/// it behind a second report, and a third item under the first report at the end. No HL01 is the number of
/// its level.
const SCATTERED: [&str; 14] = [
    "REF*A", "HL*9**RP*1", "HL*8*9*I*1", "NCD*1", "HL*7*9*I", "HL*6 A*8*F", "NCD*1", "NCA**R1", "HL*5**RP",
    "REF*B", "HL*4*6 A*PC", "HL*SN*8*SN", "NCD*1", "HL*1*9*I",
];

const SCATTERED_OUTLINE: &str = "\
report RP 9 segment 4 byte 24 segments 1
  item I 8 segment 5 byte 35 segments 2
    component F 6 A segment 8 byte 61 segments 3
      product characteristic PC 4 segment 13 byte 101 segments 1
    serial number SN SN segment 14 byte 113 segments 2
  item I 7 segment 7 byte 52 segments 1
  item I 1 segment 16 byte 130 segments 1
report RP 5 segment 11 byte 86 segments 2
";

#[test]
fn by_hand() {
    let w1 = "report RP 1 segment 3 byte 32 segments 1\n  item I 2 segment 4 byte 43 segments 3\n";
    assert_eq!(outline(joined(&W1).as_bytes()), w1);
    let in_lines = joined(&W1).replace('~', "~\r\n");
    let w1_in_lines = "report RP 1 segment 3 byte 36 segments 1\n  item I 2 segment 4 byte 49 segments 3\n";
    assert_eq!(outline(in_lines.as_bytes()), w1_in_lines);
    let scattered = after_bnr(&SCATTERED);
    assert_eq!(outline(scattered.as_bytes()), SCATTERED_OUTLINE);
    // A BIN with an HL in it is one segment of its level.
    let attached = after_bnr(&["HL*A**I", "NCD*1", "EFI*1", "BIN*9*~HL*2**I~", "HL*B*A*SN"]);
    let told = "item I A segment 3 byte 18 segments 4\n  serial number SN B segment 7 byte 54 segments 1\n";
    assert_eq!(outline(attached.as_bytes()), told);
}

#[test]
fn a_refusal_is_its_one_line() {
    let w2 = w1_with(4, "HL*2*1*F*0");
    assert_eq!(outline(w2.as_bytes()), "refused 14 segment 4 byte 43 element 2\n");
    assert_eq!(outline(b""), "refused 3 segment 1 byte 0 element 0\n");
    assert_eq!(outline(&[b'X'; 65_537]), "refused 2 segment 0 byte 0 element 0\n");
}

/// A line of an outline: how deep it stands, its letters, its HL01, and the three numbers.
struct Line<'a> {
    depth: usize,
    letters: &'a str,
    name: &'a str,
    numbers: [usize; 3],
}

/// Cuts a line: words, letters, HL01, which may hold blanks, `segment N byte B segments C`.
fn cut(line: &str) -> Line<'_> {
    let text = line.trim_start_matches(' ');
    let indent = line.len() - text.len();
    assert_eq!(indent % 2, 0, "{line}");
    let words = ["report RP ", "item I ", "component F ", "product characteristic PC ", "serial number SN "];
    let word = words.into_iter().find(|word| text.starts_with(word)).expect("a word and its letters");
    let letters = word.trim_end().rsplit(' ').next().expect("letters");
    let mut parts: Vec<&str> = text[word.len()..].rsplitn(7, ' ').collect();
    parts.reverse();
    let [name, "segment", segment, "byte", byte, "segments", count] = parts[..] else {
        panic!("{line}");
    };
    let numbers = [segment, byte, count].map(|number| number.parse().expect("a number"));
    Line { depth: 1 + indent / 2, letters, name, numbers }
}

/// The outline of each report that the program is given tells the same as its listing.
#[test]
fn outlines_agree_with_listings() {
    let (mut accepted, mut scattered, mut letters) = (0, 0, BTreeSet::new());
    for Report { name, input, .. } in reports() {
        let (listed, outlined) = (listing(&input), outline(&input));
        if listed.starts_with("refused ") {
            assert_eq!(outlined, listed, "{name}");
            continue;
        }
        let records: Vec<Vec<&str>> = listed.lines().skip(1).map(|line| line.split(' ').collect()).collect();
        let (levels, segments): (Vec<_>, Vec<_>) = records.iter().partition(|words| words[0] == "level");
        let lines: Vec<Line> = outlined.lines().map(cut).collect();
        assert_eq!(lines.len(), levels.len(), "{name}");
        // Each level by its segment, which no other has.
        for level in &levels {
            let line = lines.iter().find(|line| line.numbers[0].to_string() == level[2]).expect("the level");
            assert_eq!((line.depth.to_string().as_str(), line.letters), (level[4], level[5]), "{name}");
            let hl = segments[line.numbers[0] - 1];
            assert_eq!(line.numbers[1].to_string(), hl[1], "{name}");
            let belonging = segments.iter().filter(|segment| segment[4] == level[1]).count();
            assert_eq!(line.numbers[2], belonging, "{name}");
            let text = format!("HL*{}*", line.name);
            assert!(input[line.numbers[1]..].starts_with(text.as_bytes()), "{name}");
            letters.insert(level[5].to_string());
        }
        accepted += 1;
        scattered += usize::from(!lines.is_sorted_by_key(|line| line.numbers[0]));
    }
    println!("{accepted} accepted, {scattered} with levels behind other branches");
    assert!(accepted > 100 && scattered > 5);
    assert_eq!(letters.len(), 5);
}
