//! An attachment: BIN02 is ended by its count, may hold any byte, is handed back whole, and is copied by a rewriting.

use stormhlaw::{Accepted, How, Reason, Refusal, Segment, Separators, Tables};

/// W1 with an EFI and a BIN behind its NCD: what stands before the BIN, 67 bytes and six segments, the eight bytes of its
/// BIN02, and what follows them. Separators of both sets, 0, 255 and a line end are among the eight.
const BEFORE: &[u8] = b"ST*842*0001~BNR*11*NR7*20240301~HL*1**RP*1~HL*2*1*I*0~NCD*1~EFI*00~";
const ATTACHED: &[u8] = b"~*:\0\xff|'\n";
const BEHIND: &[u8] = b"~NCA**R1~SE*9*0001~";

const STANDARD: Separators = Separators::STANDARD;
const NEW: Separators = Separators { element: b'|', component: b'^', terminator: b'\'' };

/// Start, length, row and level of the segments.
const SEGMENTS: [(u64, u64, u64, u64); 9] = [
    (0, 11, 1, 0),
    (12, 19, 2, 0),
    (32, 10, 18, 1),
    (43, 10, 18, 2),
    (54, 5, 46, 2),
    (60, 6, 54, 2),
    (67, 14, 55, 2),
    (82, 7, 64, 2),
    (90, 9, 79, 0),
];

const ACCEPTED: Accepted = Accepted { segments: 9, levels: 2, bytes: 100 };

fn report() -> Vec<u8> {
    [BEFORE, b"BIN*8*", ATTACHED, BEHIND].concat()
}

fn segments(tables: &Tables) -> Vec<(u64, u64, u64, u64)> {
    tables.segments().iter().map(|s| (s.start, s.length, s.row, s.level)).collect()
}

#[test]
fn an_attachment_is_handed_back_whole() {
    let report = report();
    let mut tables = Tables::for_input(&report);
    assert_eq!(tables.read(&report, STANDARD, How::new()), Ok(ACCEPTED));
    assert_eq!(segments(&tables), SEGMENTS);
    let bin = tables.segments()[6].segment(&report, STANDARD).unwrap();
    let found: Vec<&[u8]> = (0..4).map(|number| bin.element(number)).collect();
    assert_eq!(found, [&b"BIN"[..], b"8", ATTACHED, b""]);
    for part in [0, 1] {
        let spans: Vec<_> = (0..4).map(|number| bin.span(number, part)).collect();
        assert_eq!(spans, [0..3, 4..5, 6..14, 14..14]);
    }
    for part in [2, 3, usize::MAX] {
        let spans: Vec<_> = (0..4).map(|number| bin.span(number, part)).collect();
        assert_eq!(spans, [3..3, 5..5, 14..14, 14..14]);
    }
}

#[test]
fn lookup_takes_a_count_that_ends_with_the_segment() {
    let looked_up = |bytes: &[u8]| -> Vec<_> {
        let segment = Segment::new(bytes, STANDARD);
        (0..5).map(|number| segment.span(number, 0)).collect()
    };
    assert_eq!(looked_up(b"BIN*8*~*:\0\xff|'"), [0..3, 4..5, 6..7, 8..13, 13..13]);
    assert_eq!(looked_up(b"BIN*8*~*:\0\xff|'\n~"), [0..3, 4..5, 6..7, 8..15, 15..15]);
    assert_eq!(looked_up(b"BIN*0*"), [0..3, 4..5, 6..6, 6..6, 6..6]);
    assert_eq!(looked_up(b"BIN*0000000000000001**"), [0..3, 4..20, 21..21, 22..22, 22..22]);
    assert_eq!(looked_up(b"BIN*000000000000001**"), [0..3, 4..19, 20..21, 21..21, 21..21]);
}

#[test]
fn rewriting_copies_it() {
    let report = report();
    let (mut tables, mut output) = (Tables::for_input(&report), [b'.'; 102]);
    assert_eq!(tables.rewrite(&report, STANDARD, How::strict(), NEW, &mut output), Ok(ACCEPTED));
    let before = b"ST|842|0001'BNR|11|NR7|20240301'HL|1||RP|1'HL|2|1|I|0'NCD|1'EFI|00'BIN|8|";
    assert_eq!(&output[..], [&before[..], ATTACHED, b"'NCA||R1'SE|9|0001'.."].concat());
    let mut again = Tables::for_input(&output);
    assert_eq!(again.read(&output, NEW, How::new()), Ok(ACCEPTED));
    assert_eq!((again.segments(), again.levels()), (tables.segments(), tables.levels()));
    let mut back = [0; 100];
    assert_eq!(again.rewrite(&output, NEW, How::strict(), STANDARD, &mut back), Ok(ACCEPTED));
    assert_eq!(&back[..], report);
}

#[test]
fn a_collision_behind_it_is_found() {
    let report = [BEFORE, b"BIN*8*", ATTACHED, b"~NCA***A|B~SE*9*0001~"].concat();
    let answer = Tables::for_input(&report).rewrite(&report, STANDARD, How::strict(), NEW, &mut [0; 102]);
    assert_eq!(
        answer,
        Err(Refusal { reason: Reason::DataEqualsSeparator, segment: 8, byte: 82, element: 3 })
    );
}

/// The refusal where these bytes stand for the BIN, with what follows it.
fn refusal(bin: &[u8], behind: &[u8]) -> (Reason, usize) {
    let report = [BEFORE, bin, behind].concat();
    let mut tables = Tables::for_input(&report);
    let refusal = tables.read(&report, STANDARD, How::new()).unwrap_err();
    assert_eq!((refusal.segment, refusal.byte), (7, 67), "{refusal}");
    assert_eq!(segments(&tables), SEGMENTS[..6]);
    (refusal.reason, refusal.element)
}

#[test]
fn a_broken_count() {
    for bin in [&b"BIN*0*"[..], b"BIN**", b"BIN*8~", b"BIN*8:", b"BIN*-8*", b"BIN*0000000000000008*"] {
        assert_eq!(refusal(bin, &[ATTACHED, BEHIND].concat()), (Reason::ValueUnfit, 1));
        assert_eq!(refusal(bin, b""), (Reason::ValueUnfit, 1));
    }
}

#[test]
fn no_terminator_where_it_is_due() {
    for bin in [&b"BIN*7*"[..], b"BIN*9*", b"BIN*1*"] {
        assert_eq!(refusal(bin, &[ATTACHED, BEHIND].concat()), (Reason::ValueUnfit, 2));
    }
    assert_eq!(refusal(b"BIN*3*~~~*", b""), (Reason::ValueUnfit, 2));
}

#[test]
fn the_end_inside() {
    let bin = [b"BIN*8*", ATTACHED].concat();
    for length in 4..=bin.len() {
        assert_eq!(refusal(&bin[..length], b""), (Reason::NoTerminator, 0));
    }
    assert_eq!(refusal(b"BIN*999*", &[ATTACHED, BEHIND].concat()), (Reason::NoTerminator, 0));
}
