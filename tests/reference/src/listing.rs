//! What the program prints for a report (document 01, "Worked reports"; document 02, Item 5). It
//! skips line ends and reads by the first profile.

use crate::levels::{LEVEL_NUMBERS, SEGMENT_NUMBERS};
use crate::plain::read_plain;
use crate::{Answer, LineEnds, Profile, Separators, CODES};

/// The most bytes that the program takes.
pub const PROGRAM_BYTES: usize = 65_536;
/// How many segments its table has room for.
pub const PROGRAM_SEGMENTS: usize = 1_000;
/// How many levels its table has room for.
pub const PROGRAM_LEVELS: usize = 200;

/// What the program has read of an accepted report.
pub(crate) struct Reading {
    /// The records of its segments.
    pub segments: Vec<u64>,
    /// The records of its levels.
    pub levels: Vec<u64>,
    /// How many bytes it takes.
    pub bytes: usize,
}

/// The whole listing of an accepted report, or the one line of a refusal. Every line ends with LF.
pub fn listing(report: &[u8]) -> String {
    read_by_program(report).map_or_else(|refusal| refusal, |reading| lines(&reading))
}

/// Reads a report as the program does; a refusal is the line that it prints.
pub(crate) fn read_by_program(report: &[u8]) -> Result<Reading, String> {
    if report.len() > PROGRAM_BYTES {
        return Err(refusal(2, 0, 0, 0));
    }
    let mut segments = vec![0; SEGMENT_NUMBERS * PROGRAM_SEGMENTS];
    let mut levels = vec![0; LEVEL_NUMBERS * PROGRAM_LEVELS];
    let (line_ends, profile) = (LineEnds::default(), Profile::default());
    match read_plain(report, Separators::STANDARD, line_ends, profile, &mut segments, &mut levels) {
        Answer::Refused { number, segment, byte, element } => Err(refusal(number, segment, byte, element)),
        Answer::Accepted { segments: count, levels: level_count, bytes } => {
            segments.truncate(SEGMENT_NUMBERS * count);
            levels.truncate(LEVEL_NUMBERS * level_count);
            Ok(Reading { segments, levels, bytes })
        }
    }
}

fn refusal(number: usize, segment: usize, byte: usize, element: usize) -> String {
    format!("refused {number} segment {segment} byte {byte} element {element}\n")
}

fn lines(Reading { segments, levels, bytes }: &Reading) -> String {
    let (segments, levels) = (segments.chunks(SEGMENT_NUMBERS), levels.chunks(LEVEL_NUMBERS));
    let mut lines = format!("842 segments {} levels {} bytes {bytes}\n", segments.len(), levels.len());
    lines.extend(segments.enumerate().map(segment_line));
    lines.extend(levels.enumerate().map(level_line));
    lines
}

/// The segment's number, where it starts, its length without terminator, its row, the level it belongs to.
fn segment_line((at, record): (usize, &[u64])) -> String {
    format!("{} {} {} {} {}\n", at + 1, record[0], record[1], record[2], record[3])
}

/// The level's number, its segment, its parent's level number, its depth, its code.
fn level_line((at, record): (usize, &[u64])) -> String {
    let code = CODES[record[3] as usize - 1];
    format!("level {} {} {} {} {code}\n", at + 1, record[0], record[1], record[2])
}
