//! `outline < REPORT`: what the program must print for a report as its outline.

use reference::outline::outline;
use std::io::{self, Read, Write};

fn main() -> io::Result<()> {
    let mut report = Vec::new();
    io::stdin().read_to_end(&mut report)?;
    io::stdout().write_all(outline(&report).as_bytes())
}
