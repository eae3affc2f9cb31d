//! A report under its name, and how it is put together.

use stormhlaw::How;

/// A report under its name.
pub struct Input {
    pub name: &'static str,
    pub bytes: Vec<u8>,
    /// Line ends stand between its segments: it can be read and not rewritten.
    pub in_lines: bool,
    /// How it is read: as callers do by default, past line ends.
    pub how: How,
}

impl Input {
    /// A report without line ends.
    pub fn new(name: &'static str, bytes: Vec<u8>) -> Input {
        Input { name, bytes, in_lines: false, how: How::new() }
    }

    /// A storage-quality reply without line ends.
    pub fn reply(name: &'static str, bytes: Vec<u8>) -> Input {
        Input { how: How::reply(), ..Input::new(name, bytes) }
    }

    /// That report, which has no BIN, with CR LF behind each segment but the last.
    pub fn in_lines(name: &'static str, report: &[u8]) -> Input {
        let segments: Vec<&[u8]> = report.split_inclusive(|byte| *byte == b'~').collect();
        Input { name, bytes: segments.join(&b"\r\n"[..]), in_lines: true, how: How::new() }
    }
}

/// A report that grows segment by segment.
pub struct Report {
    bytes: Vec<u8>,
    segments: usize,
}

impl Report {
    /// What stands before the first level.
    pub fn new() -> Report {
        let mut report = Report { bytes: Vec::new(), segments: 0 };
        report.add("ST*842*0001");
        report.add("BNR*11*NR7*20240301");
        report
    }

    /// The same with a level under which items hang, whose name is R.
    pub fn rooted() -> Report {
        let mut report = Report::new();
        report.add("HL*R**RP*1");
        report
    }

    pub fn add(&mut self, segment: &str) {
        self.bytes.extend_from_slice(segment.as_bytes());
        self.bytes.push(b'~');
        self.segments += 1;
    }

    /// Line after line, up to about so many bytes.
    pub fn fill(&mut self, bytes: usize, mut line: impl FnMut(usize) -> String) {
        for turn in 0.. {
            if bytes <= self.bytes.len() + 12 {
                return;
            }
            self.add(&line(turn));
        }
    }

    pub fn close(mut self) -> Vec<u8> {
        self.add(&format!("SE*{}*0001", self.segments + 1));
        self.bytes
    }
}
