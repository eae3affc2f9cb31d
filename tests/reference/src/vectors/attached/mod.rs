//! BIN ended by its count (document 02, Item 1): reading, rewriting and lookup.

mod lookups;
mod reading;
mod rewriting;

use crate::vectors::case::Told;

/// What stands before the BIN: five segments.
const BEFORE: &str = "ST*842*0001~BNR*1~HL*1**I~NCD*1~EFI*1~";

/// Where those five segments start, and the BIN behind them.
const STARTS: [u64; 6] = [0, 12, 18, 26, 32, 38];

/// The report up to these bytes, which stand where the BIN does.
fn ending(bin: &[u8]) -> Vec<u8> {
    [BEFORE.as_bytes(), bin].concat()
}

/// The report with these bytes in the BIN's place and an SE that counts seven segments.
fn around(bin: &[u8]) -> Vec<u8> {
    [BEFORE.as_bytes(), bin, b"SE*7*0001~"].concat()
}

pub fn cases() -> Vec<Told> {
    [reading::cases(), rewriting::cases(), lookups::cases()].concat()
}
