//! Reports with BINs (document 02, Item 1): many, large ones, and the limits of the program.

use super::Report;

/// What stands before the first BIN, and how many segments that is.
const BEFORE: &str = "ST*842*0001~BNR*1~HL*1**I~NCD*1~EFI*1~";
const SEGMENTS_BEFORE: usize = 5;

const LONGEST: usize = 65_536;

pub fn reports() -> Vec<Report> {
    [pictures(), around_the_limit(), at_the_last_segment()].concat()
}

/// A BIN with so many bytes, all values in turn, so that separators and line ends are among them.
fn picture(length: usize) -> Vec<u8> {
    let bytes: Vec<u8> = (0..=255).cycle().take(length).collect();
    [format!("BIN*{length}*").as_bytes(), &bytes, b"~"].concat()
}

/// A report with these BINs, each behind an EFI of its own.
fn with_bins(bins: &[Vec<u8>]) -> Vec<u8> {
    let segments = SEGMENTS_BEFORE + 2 * bins.len();
    let closing = format!("SE*{segments}*0001~");
    [BEFORE.as_bytes(), &bins.join(&b"EFI*1~"[..]), closing.as_bytes()].concat()
}

/// Pictures of several sizes, one and many.
fn pictures() -> Vec<Report> {
    let one = |length: usize| Report::accepted(&format!("bin-{length}"), with_bins(&[picture(length)]), 7, 1);
    let mut reports: Vec<Report> = [1, 126, 127, 128, 255, 256, 1_000, 10_000, 65_000].map(one).into();
    let many: Vec<Vec<u8>> = (1..=300).map(picture).collect();
    reports.push(Report::accepted("bin-many", with_bins(&many), 605, 1));
    reports
}

/// A BIN that fills the program's input, counts that end before it or beyond, and a byte too many.
fn around_the_limit() -> Vec<Report> {
    let end = b"~SE*7*0001~";
    let room = LONGEST - BEFORE.len() - b"BIN*65000*".len() - end.len();
    let filled = |count: usize, length: usize| -> Vec<u8> {
        let count = format!("BIN*{count}*");
        [BEFORE.as_bytes(), count.as_bytes(), &vec![b'~'; length], end].concat()
    };
    vec![
        Report::accepted("bin-to-65536", filled(room, room), 7, 1),
        Report::told("bin-to-65536-short", filled(room - 1, room), [4, 7, LONGEST as u64 - 11, 0]),
        Report::told("bin-to-65536-long", filled(room + 1, room), [10, 6, 38, 2]),
        Report::told("bin-to-65536-beyond", filled(room + end.len(), room), [3, 6, 38, 0]),
        Report::told("bin-to-65536-far-beyond", filled(99_999, room), [3, 6, 38, 0]),
        Report::told("bin-to-65537", filled(room + 1, room + 1), [2, 0, 0, 0]),
    ]
}

/// The 1,001st segment is a BIN: there is no room for a whole one, and a broken one is refused before that.
fn at_the_last_segment() -> Vec<Report> {
    let plain = "REF*A~".repeat(1_000 - SEGMENTS_BEFORE);
    let before = BEFORE.replace("EFI", &format!("{plain}EFI"));
    let start = before.len() as u64;
    let then = |bin: &[u8]| [before.as_bytes(), bin].concat();
    vec![
        Report::told("bin-1001", then(b"BIN*3*A~C~"), [17, 1001, start, 0]),
        Report::told("bin-1001-length", then(b"BIN*3~"), [10, 1001, start, 1]),
        Report::told("bin-1001-end", then(b"BIN*3*A~CD~"), [10, 1001, start, 2]),
        Report::told("bin-1001-not-ended", then(b"BIN*3*A~C"), [3, 1001, start, 0]),
    ]
}
