//! `listing < REPORT`: what the program must print for a report.

use reference::listing::listing;
use std::io::{self, Read, Write};

fn main() -> io::Result<()> {
    let mut report = Vec::new();
    io::stdin().read_to_end(&mut report)?;
    io::stdout().write_all(listing(&report).as_bytes())
}
