//! The build of the library for this processor, as far as the kit compiles for it; its names begin with `native_`.

#![allow(unsafe_code)]

use crate::sides::{Lent, NEW, OLD};
use stormhlaw::How;

extern "C" {
    fn native_stormhlaw_read(
        input: *const u8,
        input_length: usize,
        element: u8,
        component: u8,
        terminator: u8,
        how: u64,
        segments: *mut u64,
        segments_length: usize,
        levels: *mut u64,
        levels_length: usize,
        answer: *mut [u64; 4],
    );

    fn native_stormhlaw_rewrite(
        input: *const u8,
        input_length: usize,
        element: u8,
        component: u8,
        terminator: u8,
        how: u64,
        new_element: u8,
        new_component: u8,
        new_terminator: u8,
        segments: *mut u64,
        segments_length: usize,
        levels: *mut u64,
        levels_length: usize,
        output: *mut u8,
        output_length: usize,
        answer: *mut [u64; 4],
    );
}

/// Reads with the standard separators.
pub fn read(input: &[u8], how: How, lent: &mut Lent) -> [u64; 4] {
    let mut answer = [u64::MAX; 4];
    // SAFETY: every pointer and length is of a slice or an array that lives until the call returns, and those that are
    // written are borrowed for it alone.
    unsafe {
        native_stormhlaw_read(
            input.as_ptr(),
            input.len(),
            OLD.element,
            OLD.component,
            OLD.terminator,
            how.flags(),
            lent.segments.as_mut_ptr(),
            lent.segments.len(),
            lent.levels.as_mut_ptr(),
            lent.levels.len(),
            &mut answer,
        );
    }
    answer
}

/// Rewrites from the standard separators to the new ones.
pub fn rewrite(input: &[u8], how: How, lent: &mut Lent) -> [u64; 4] {
    let mut answer = [u64::MAX; 4];
    // SAFETY: as for `read`; the output too is borrowed for the call alone.
    unsafe {
        native_stormhlaw_rewrite(
            input.as_ptr(),
            input.len(),
            OLD.element,
            OLD.component,
            OLD.terminator,
            how.flags(),
            NEW.element,
            NEW.component,
            NEW.terminator,
            lent.segments.as_mut_ptr(),
            lent.segments.len(),
            lent.levels.as_mut_ptr(),
            lent.levels.len(),
            lent.output.as_mut_ptr(),
            lent.output.len(),
            &mut answer,
        );
    }
    answer
}
