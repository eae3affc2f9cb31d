//! The functions of the library over plain numbers: tables of any length, and answers, spans and the numbers of a
//! quantity as the library writes them. `include/stormhlaw.h` says what each number is.
//!
//! No other module calls C. What is lent are slices: no pointer is null, every length is right, and what is written
//! overlaps with nothing else.

#![allow(unsafe_code)]

use crate::records::{Level, SegmentRecord};
use crate::separators::Separators;
use std::mem::{align_of, size_of};
use std::slice::{from_raw_parts, from_raw_parts_mut};

extern "C" {
    fn stormhlaw_read(
        input: *const u8,
        input_length: usize,
        element: u8,
        component: u8,
        terminator: u8,
        how: u64,
        segments: *mut u64,
        segments_length: usize,
        levels: *mut u64,
        levels_length: usize,
        answer: *mut [u64; 4],
    );

    fn stormhlaw_rewrite(
        input: *const u8,
        input_length: usize,
        element: u8,
        component: u8,
        terminator: u8,
        how: u64,
        new_element: u8,
        new_component: u8,
        new_terminator: u8,
        segments: *mut u64,
        segments_length: usize,
        levels: *mut u64,
        levels_length: usize,
        output: *mut u8,
        output_length: usize,
        answer: *mut [u64; 4],
    );

    fn stormhlaw_lookup(
        segment: *const u8,
        segment_length: usize,
        element: u8,
        component: u8,
        number: u64,
        part: u64,
        span: *mut [u64; 2],
    );

    fn stormhlaw_number(text: *const u8, text_length: usize, number: *mut [i64; 5]);

    fn stormhlaw_walk(
        levels: *const u64,
        levels_length: usize,
        count: u64,
        output: *mut u64,
        output_length: usize,
        answer: *mut [u64; 2],
    );
}

/// What an answer and a span hold before the call. The library always writes them; a zero would read as an acceptance.
const UNWRITTEN: u64 = u64::MAX;

/// The flag of a strict reading, in the sum `how`. Bits of the sum without a name are not looked at.
pub const STRICT: u64 = 1;

/// The flag of a reading as a storage-quality reply.
pub const REPLY: u64 = 2;

/// Reads one transaction: fills both tables and gives the four numbers of the answer.
pub fn read(
    input: &[u8],
    separators: Separators,
    how: u64,
    segments: &mut [u64],
    levels: &mut [u64],
) -> [u64; 4] {
    let mut answer = [UNWRITTEN; 4];
    // SAFETY: every pointer and length is of a slice or an array that lives until the call returns, and those that are
    // written are borrowed for it alone.
    unsafe {
        stormhlaw_read(
            input.as_ptr(),
            input.len(),
            separators.element,
            separators.component,
            separators.terminator,
            how,
            segments.as_mut_ptr(),
            segments.len(),
            levels.as_mut_ptr(),
            levels.len(),
            &mut answer,
        );
    }
    answer
}

/// Reads one transaction, strictly with that flag or without it, and as a reply where its flag is set, and writes it with
/// other separators: fills both tables and the output and gives the four numbers of the answer.
pub fn rewrite(
    input: &[u8],
    separators: Separators,
    how: u64,
    new: Separators,
    segments: &mut [u64],
    levels: &mut [u64],
    output: &mut [u8],
) -> [u64; 4] {
    let mut answer = [UNWRITTEN; 4];
    // SAFETY: as for `read`; the output too is borrowed for the call alone.
    unsafe {
        stormhlaw_rewrite(
            input.as_ptr(),
            input.len(),
            separators.element,
            separators.component,
            separators.terminator,
            how,
            new.element,
            new.component,
            new.terminator,
            segments.as_mut_ptr(),
            segments.len(),
            levels.as_mut_ptr(),
            levels.len(),
            output.as_mut_ptr(),
            output.len(),
            &mut answer,
        );
    }
    answer
}

/// Start and length of a part of a segment that is cut by these two separators: of its element `number`, 0 being the tag,
/// the component `part`, 0 being the whole element.
pub fn lookup(segment: &[u8], element: u8, component: u8, number: u64, part: u64) -> [u64; 2] {
    let (start, length, mut span) = (segment.as_ptr(), segment.len(), [UNWRITTEN; 2]);
    // SAFETY: the slice and the array live until the call returns, and the array is borrowed for it alone.
    unsafe { stormhlaw_lookup(start, length, element, component, number, part, &mut span) };
    span
}

/// The five numbers of a quantity: whether the text is one, value, places, exponent, and whether an exponent is written.
pub fn number(text: &[u8]) -> [i64; 5] {
    // Zeros read as no quantity.
    let mut number = [0; 5];
    // SAFETY: the slice and the array live until the call returns, and the array is borrowed for it alone.
    unsafe { stormhlaw_number(text.as_ptr(), text.len(), &mut number) };
    number
}

/// Lists so many levels of a level table under their parents: fills the output and gives the two numbers of the answer.
pub fn walk(levels: &[u64], count: u64, output: &mut [u64]) -> [u64; 2] {
    let (table, length, mut answer) = (levels.as_ptr(), levels.len(), [UNWRITTEN; 2]);
    // SAFETY: the slices and the array live until the call returns, and those that are written are borrowed for it alone.
    unsafe { stormhlaw_walk(table, length, count, output.as_mut_ptr(), output.len(), &mut answer) };
    answer
}

/// How many numbers a segment's record has, and a level's.
const SEGMENT_NUMBERS: usize = 4;
const LEVEL_NUMBERS: usize = 4;

// A record is as many numbers one behind the other, and nothing else.
const _: () = assert!(size_of::<SegmentRecord>() == SEGMENT_NUMBERS * size_of::<u64>());
const _: () = assert!(size_of::<Level>() == LEVEL_NUMBERS * size_of::<u64>());
const _: () = assert!(align_of::<SegmentRecord>() == align_of::<u64>());
const _: () = assert!(align_of::<Level>() == align_of::<u64>());

/// The numbers of a segment table.
pub(crate) fn segment_numbers(table: &mut [SegmentRecord]) -> &mut [u64] {
    // SAFETY: a record is four numbers, any number is fit in each place, and the slice stays borrowed. Their count is
    // no more than the slice has bytes, and does not overflow.
    unsafe { from_raw_parts_mut(table.as_mut_ptr().cast(), table.len() * SEGMENT_NUMBERS) }
}

/// The numbers of a level table that is only looked at.
pub(crate) fn numbers_of_levels(table: &[Level]) -> &[u64] {
    // SAFETY: as for `segment_numbers`.
    unsafe { from_raw_parts(table.as_ptr().cast(), table.len() * LEVEL_NUMBERS) }
}

/// The numbers of a level table.
pub(crate) fn level_numbers(table: &mut [Level]) -> &mut [u64] {
    // SAFETY: as for `segment_numbers`.
    unsafe { from_raw_parts_mut(table.as_mut_ptr().cast(), table.len() * LEVEL_NUMBERS) }
}
