//! BIN ended by its count (document 02, Item 1): the definition against both readers, lookup and
//! rewriting by hand, and the largest BINs.

mod plainly;
mod words;

use reference::generator::{counted_segment, Random};
use reference::plain::read_plain;
use reference::{lookup_span, read, rewrite};
use reference::{LineEnds, Profile, Separators, LONGEST, SEGMENT_NUMBERS};
use words::words;

/// What stands before the BIN, which is then the sixth segment and starts at byte 38.
const BEFORE: &[u8] = b"ST*842*0001~BNR*1~HL*1**I~NCD*1~EFI*1~";

/// How many numbers the tables have: more than enough.
const ROOM: (usize, usize) = (SEGMENT_NUMBERS * 20, 12);

/// Reads by both readers and gives the four numbers and the records of the segment table.
fn given(input: &[u8]) -> ([u64; 4], Vec<[u64; SEGMENT_NUMBERS]>) {
    let lent = || (vec![7; ROOM.0], vec![8; ROOM.1]);
    let (mut fast, mut plain) = (lent(), lent());
    let (set, line_ends) = (Separators::STANDARD, LineEnds::Skipped);
    let answer = read(input, set, line_ends, Profile::Report, &mut fast.0, &mut fast.1);
    let plain_answer = read_plain(input, set, line_ends, Profile::Report, &mut plain.0, &mut plain.1);
    assert_eq!((answer, &fast), (plain_answer, &plain), "{}", input.escape_ascii());
    (answer.numbers(), fast.0.as_chunks().0.to_vec())
}

/// The answer with these bytes in the BIN's place and nothing behind them.
fn ending(bin: &[u8]) -> [u64; 4] {
    given(&[BEFORE, bin].concat()).0
}

/// Whether these are the bytes of a whole BIN with its terminator.
fn is_whole(bytes: &[u8]) -> bool {
    let Some((count, behind)) = length_and_rest(bytes) else { return false };
    count >= 1 && behind.len() as u64 == count + 1 && behind.last() == Some(&b'~')
}

/// The number that 1 to 15 digits behind `BIN*` give, and the bytes behind the separator that follows.
fn length_and_rest(bytes: &[u8]) -> Option<(u64, &[u8])> {
    let text = bytes.strip_prefix(b"BIN*")?;
    let end = text.iter().position(|byte| *byte == b'*')?;
    let digits = std::str::from_utf8(&text[..end]).ok()?;
    let fit = (1..=15).contains(&end) && digits.bytes().all(|byte| byte.is_ascii_digit());
    fit.then(|| (digits.parse().unwrap(), &text[end + 1..]))
}

/// Whether a whole BIN can still come of these bytes: one more digit, the separator or both are tried,
/// then as many bytes as the count still asks for.
fn can_be_whole(bytes: &[u8]) -> bool {
    let completed = |more: &str| {
        let mut begun = [bytes, more.as_bytes()].concat();
        let Some((count, behind)) = length_and_rest(&begun) else { return false };
        let missing = (count as usize).saturating_sub(behind.len());
        begun.extend(vec![b'A'; missing]);
        begun.push(b'~');
        is_whole(&begun)
    };
    is_whole(bytes) || ["", "1", "*", "1*"].into_iter().any(completed)
}

/// The answer by the definition, if the BIN is not whole: at the first byte after which none can be, or 3.
/// Otherwise how many bytes the whole BIN has.
fn by_definition(bin: &[u8]) -> Result<usize, [u64; 4]> {
    for length in b"BIN*".len()..=bin.len() {
        if is_whole(&bin[..length]) {
            return Ok(length);
        }
        if !can_be_whole(&bin[..length]) {
            let counted = length_and_rest(&bin[..length - 1]).is_some_and(|(count, _)| count > 0);
            return Err([10, 6, 38, if counted { 2 } else { 1 }]);
        }
    }
    Err([3, 6, 38, 0])
}

#[test]
fn every_short_word_is_read_as_defined() {
    let (mut whole, mut refused) = (0, 0);
    for word in words(b"012*~A", 6) {
        let bin = [b"BIN*", &word[..]].concat();
        let (answer, segments) = given(&[BEFORE, &bin].concat());
        match by_definition(&bin) {
            Err(expected) => {
                assert_eq!(answer, expected, "{}", bin.escape_ascii());
                refused += 1;
            }
            Ok(length) => {
                assert_eq!(segments[5], [38, length as u64 - 1, 55, 1]);
                assert_eq!(answer[1..3], [7, 38 + length as u64], "{}", bin.escape_ascii());
                whole += 1;
            }
        }
    }
    println!("{whole} whole, {refused} refused");
    assert!(whole > 300 && refused > 50_000);
}

#[test]
fn lengths_by_hand() {
    let not_ended = [3, 6, 38, 0];
    let broken = [10, 6, 38, 1];
    let zeros = |count: usize, more: &str| format!("BIN*{}{more}", "0".repeat(count)).into_bytes();
    for (bin, answer) in [
        (zeros(0, ""), not_ended),
        (zeros(0, "*"), broken),
        (zeros(0, "~"), broken),
        (zeros(0, "A"), broken),
        (zeros(1, ""), not_ended),
        (zeros(1, "*"), broken),
        (zeros(14, ""), not_ended),
        (zeros(14, "*"), broken),
        (zeros(14, "1"), not_ended),
        (zeros(14, "1*"), not_ended),
        (zeros(14, "1*~"), not_ended),
        (zeros(14, "1*~~"), [3, 7, 60, 0]),
        (zeros(15, ""), broken),
        (zeros(15, "1"), broken),
        (zeros(15, "*"), broken),
        (zeros(13, "12"), not_ended),
        (zeros(13, "123"), broken),
        (b"BIN*3".to_vec(), not_ended),
        (b"BIN*3~".to_vec(), broken),
        (b"BIN*3:".to_vec(), broken),
        (b"BIN*3\0".to_vec(), broken),
        (b"BIN*999999999999999*A~".to_vec(), not_ended),
        (b"BIN*9999999999999999".to_vec(), broken),
    ] {
        assert_eq!(ending(&bin), answer, "{}", bin.escape_ascii());
    }
}

#[test]
fn ends_by_hand() {
    let not_ended = [3, 6, 38, 0];
    let broken = [10, 6, 38, 2];
    for (bin, answer) in [
        (&b"BIN*3*"[..], not_ended),
        (b"BIN*3*~~~", not_ended),
        (b"BIN*3*\0\xFF\n", not_ended),
        (b"BIN*3*~~~A", broken),
        (b"BIN*3*ABC*", broken),
        (b"BIN*3*ABC:", broken),
        (b"BIN*3*AB~SE*7*0001~", broken),
        (b"BIN*3*ABC~SE*7*0001~", [0, 7, 1, 58]),
        (b"BIN*3*~:*~SE*7*0001~", [0, 7, 1, 58]),
        (b"BIN*3*\0\xFF\n~SE*7*0001~", [0, 7, 1, 58]),
        (b"BIN*12*ABC~SE*7*0001~", broken),
        (b"BIN*13*ABC~SE*7*0001~", [3, 7, 59, 0]),
        (b"BIN*14*ABC~SE*7*0001~", not_ended),
    ] {
        assert_eq!(ending(bin), answer, "{}", bin.escape_ascii());
    }
}

#[test]
fn every_byte_may_stand_in_bin02_and_only_the_terminator_behind_it() {
    for byte in 0..=255 {
        let (answer, segments) = given(&[BEFORE, b"BIN*1*", &[byte], b"~SE*7*0001~"].concat());
        assert_eq!(answer, [0, 7, 1, 56]);
        assert_eq!(segments[5..7], [[38, 7, 55, 1], [46, 9, 79, 0]]);
        let due = ending(&[b"BIN*1*A", &[byte][..]].concat());
        assert_eq!(due, if byte == b'~' { [3, 7, 46, 0] } else { [10, 6, 38, 2] });
        let first = ending(&[b"BIN*", &[byte][..]].concat());
        assert_eq!(first, if byte.is_ascii_digit() { [3, 6, 38, 0] } else { [10, 6, 38, 1] });
        let second = ending(&[b"BIN*9", &[byte][..]].concat());
        let open = byte.is_ascii_digit() || byte == b'*';
        assert_eq!(second, if open { [3, 6, 38, 0] } else { [10, 6, 38, 1] });
    }
}

#[test]
fn a_bin_fills_an_input_to_the_limit() {
    let end = b"~SE*7*0001~";
    let count = LONGEST - BEFORE.len() - b"BIN*1048515*".len() - end.len();
    assert_eq!(count, 1_048_515);
    let content: Vec<u8> = b"~*:BIN*1*".iter().copied().cycle().take(count).collect();
    let bin = |count: usize| [BEFORE, format!("BIN*{count}*").as_bytes(), &content, end].concat();
    let input = bin(count);
    assert_eq!(input.len(), LONGEST);
    assert_eq!(given(&input).0, [0, 7, 1, LONGEST as u64]);
    assert_eq!(given(&bin(count + 1)).0, [10, 6, 38, 2]);
    assert_eq!(given(&bin(count - 1)).0, [10, 6, 38, 2]);
    assert_eq!(given(&bin(count + end.len())).0, [3, 6, 38, 0]);
    assert_eq!(given(&[&input[..], b"X"].concat()).0, [2, 0, 0, 0]);
}

/// The elements 0 to 4 by lookup.
fn looked_up(segment: &[u8], separator: u8) -> [&[u8]; 5] {
    [0, 1, 2, 3, 4].map(|number| {
        let (start, length) = lookup_span(segment, separator, b'^', number, 0);
        &segment[start..start + length]
    })
}

#[test]
fn lookups_by_hand() {
    assert_eq!(looked_up(b"BIN*3*A*C", b'*'), [&b"BIN"[..], b"3", b"A*C", b"", b""]);
    assert_eq!(looked_up(b"BIN*2*A*C", b'*'), [&b"BIN"[..], b"2", b"A", b"C", b""]);
    assert_eq!(looked_up(b"BIN*4*A*C", b'*'), [&b"BIN"[..], b"4", b"A", b"C", b""]);
    assert_eq!(looked_up(b"BIN*000000000000003*A*C", b'*')[2], b"A*C");
    assert_eq!(looked_up(b"BIN*0000000000000003*A*C", b'*')[2], b"A");
    assert_eq!(looked_up(b"BIN*0*", b'*'), [&b"BIN"[..], b"0", b"", b"", b""]);
    assert_eq!(looked_up(b"BIN:3:A*C", b':'), [&b"BIN"[..], b"3", b"A*C", b"", b""]);
    assert_eq!(looked_up(b"BIN*3*A:C", b':'), [&b"BIN*3*A"[..], b"C", b"", b"", b""]);
    // Bytes that no transaction is cut at: letters of the tag, digits.
    assert_eq!(looked_up(b"BINB3BABC", b'B'), [&b"BIN"[..], b"3", b"ABC", b"", b""]);
    assert_eq!(looked_up(b"BINB4BABC", b'B'), [&b""[..], b"IN", b"4", b"A", b"C"]);
    assert_eq!(looked_up(b"BIN121A1", b'1'), [&b"BIN"[..], b"2", b"A1", b"", b""]);
    assert_eq!(looked_up(b"BIN101X", b'1'), [&b"BIN"[..], b"0", b"X", b"", b""]);
    assert_eq!(looked_up(b"BIN333ABC", b'3'), [&b"BIN"[..], b"", b"", b"ABC", b""]);
    let segment = b"BIN*3*A*C";
    assert_eq!(lookup_span(segment, b'*', b':', 2, 0), (6, 3));
    for number in [3, 4, 1000, usize::MAX] {
        assert_eq!(lookup_span(segment, b'*', b':', number, 0), (9, 0));
    }
}

#[test]
fn components_by_hand() {
    let parts = |segment, component, number| {
        [0, 1, 2, usize::MAX].map(|part| lookup_span(segment, b'*', component, number, part))
    };
    // Whole: one component each, whatever bytes stand in it.
    assert_eq!(parts(b"BIN*3*A:C", b':', 2), [(6, 3), (6, 3), (9, 0), (9, 0)]);
    assert_eq!(parts(b"BIN*3*A*C", b'*', 2), [(6, 3), (6, 3), (9, 0), (9, 0)]);
    assert_eq!(parts(b"BIN*3*A:C", b'3', 1), [(4, 1), (4, 1), (5, 0), (5, 0)]);
    assert_eq!(parts(b"BIN*3*A:C", b'I', 0), [(0, 3), (0, 3), (3, 0), (3, 0)]);
    assert_eq!(parts(b"BIN*3*A:C", b':', 3), [(9, 0); 4]);
    // Cut, as the count is one off.
    assert_eq!(parts(b"BIN*2*A:C", b':', 2), [(6, 3), (6, 1), (8, 1), (9, 0)]);
    assert_eq!(parts(b"BIN*4*A:C", b':', 2), [(6, 3), (6, 1), (8, 1), (9, 0)]);
    assert_eq!(parts(b"BIN*2*A:C", b'2', 1), [(4, 1), (4, 0), (5, 0), (5, 0)]);
    assert_eq!(parts(b"BIN*2*A:C", b'I', 0), [(0, 3), (0, 1), (2, 1), (3, 0)]);
    // An element is cut, whatever it looks like.
    assert_eq!(lookup_span(b"BIN:3:A:C", b'*', b':', 0, 3), (6, 1));
    assert_eq!(lookup_span(b"REF*BIN:3:A:C", b'*', b':', 1, 3), (10, 1));
}

#[test]
fn lookups_agree_with_the_plain_ones() {
    let mut random = Random::new(842);
    let mut whole = 0;
    for _ in 0..100_000 {
        let (segment, separator) = counted_segment(&mut random);
        let other = random.below(256) as u8;
        let far = random.below(40);
        for (element, component) in [(separator, b':'), (separator, other), (other, separator)] {
            let asked = [(0, 0), (0, 1), (1, 0), (1, 2), (2, 0), (2, 1), (2, 2), (3, 0), (4, 1)];
            for (number, part) in asked.into_iter().chain([(2, far), (far, 0), (far, 1), (usize::MAX, 0)]) {
                let expected = plainly::lookup(&segment, element, component, number, part);
                let found = lookup_span(&segment, element, component, number, part);
                assert_eq!(found, expected, "{} at {element}, {component}", segment.escape_ascii());
            }
        }
        whole += usize::from(plainly::components(&segment, separator, separator).len() == 3);
    }
    println!("{whole} of 100,000 in three pieces");
    assert!((30_000..85_000).contains(&whole));
}

/// Rewrites and gives the answer and the output.
fn rewritten(input: &[u8], old: Separators, new: Separators) -> ([u64; 4], Vec<u8>) {
    let (mut segments, mut levels, mut output) = (vec![7; ROOM.0], vec![8; ROOM.1], vec![b'?'; input.len()]);
    let profile = Profile::Report;
    let answer = rewrite(input, old, profile, new, &mut segments, &mut levels, &mut output);
    let (mut plain_segments, mut plain_levels) = (vec![7; ROOM.0], vec![8; ROOM.1]);
    let mut plain_output = vec![b'?'; input.len()];
    let (segments_of_plain, levels_of_plain) = (&mut plain_segments, &mut plain_levels);
    let plain =
        plainly::rewrite(input, old, profile, new, segments_of_plain, levels_of_plain, &mut plain_output);
    assert_eq!((answer, &segments, &levels, &output), (plain, &plain_segments, &plain_levels, &plain_output));
    (answer.numbers(), output)
}

#[test]
fn rewriting_copies_bin02() {
    let new = Separators::new(b'|', b'^', b'\'');
    let standard = b"ST*842*0001~BNR*A:B~HL*1**I~NCD*1~EFI*1~BIN*7*~*:|^'\0~N1*SU*A~SE*8*0001~";
    let other = b"ST|842|0001'BNR|A^B'HL|1||I'NCD|1'EFI|1'BIN|7|~*:|^'\0'N1|SU|A'SE|8|0001'";
    let answer = [0, 8, 1, standard.len() as u64];
    assert_eq!(rewritten(standard, Separators::STANDARD, new), (answer, other.to_vec()));
    assert_eq!(rewritten(other, new, Separators::STANDARD), (answer, standard.to_vec()));
    assert_eq!(rewritten(standard, Separators::STANDARD, Separators::STANDARD), (answer, standard.to_vec()));
    let turned = b"ST~842~0001:BNR~A*B:HL~1~~I:NCD~1:EFI~1:BIN~7~~*:|^'\0:N1~SU~A:SE~8~0001:";
    let set = Separators::new(b'~', b'*', b':');
    assert_eq!(rewritten(standard, Separators::STANDARD, set), (answer, turned.to_vec()));
}

#[test]
fn rewriting_looks_for_collisions_around_bin02() {
    let new = Separators::new(b'|', b'^', b'\'');
    let unchanged = |text: &[u8], answer: [u64; 4]| {
        let untouched = vec![b'?'; text.len()];
        assert_eq!(rewritten(text, Separators::STANDARD, new), (answer, untouched));
    };
    unchanged(b"ST*842*0001~BNR*1~HL*1**I~NCD*1~EFI*1*^~BIN*3*~|~~SE*7*0001~", [18, 5, 32, 2]);
    unchanged(b"ST*842*0001~BNR*1~HL*1**I~NCD*1~EFI*1~BIN*3*~|~~N1*SU*|~SE*8*0001~", [18, 7, 48, 2]);
    unchanged(b"ST*842*0001~BNR*1~HL*1**I~NCD*1~EFI*1~BIN*3*~|~~SE*7*00|1~", [16, 7, 48, 2]);
}
