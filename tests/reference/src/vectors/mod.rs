//! Fixed test vectors: files of cases, and the text that a program under test must print for them.

mod answers;
mod astray;
mod attached;
mod bounds;
mod case;
mod generated;
pub mod levels;
mod lines;
mod long;
mod lookups;
pub mod numbers;
mod pairs;
mod places;
mod quantities;
pub mod replies;
mod rewriting;
mod sets;
pub mod text;
pub mod walks;
mod whole;
mod worked;

pub use case::{Case, How, Told};
pub use generated::generated;

use std::fs;
use std::io;
use std::path::Path;

/// A file of cases has fewer bytes than this.
pub const FILE_BYTES: usize = 60_000;
/// A table of a case has at most so many numbers.
pub const TABLE_NUMBERS: usize = 120;
/// An output of a case has at most so many bytes.
pub const OUTPUT_BYTES: usize = 400;

/// The cases of one file.
pub struct Group {
    /// The file's name.
    pub name: String,
    /// Its cases. Some carry the answer that the paper gives.
    pub cases: Vec<Told>,
}

/// All groups, in the alphabetical order of their names.
pub fn groups() -> Vec<Group> {
    let named = [
        ("answers", answers::cases()),
        ("astray", astray::cases()),
        ("attached", attached::cases()),
        ("bounds", bounds::cases()),
        ("levels", levels::cases()),
        ("lines", lines::cases()),
        ("long", long::cases()),
        ("lookups", lookups::cases()),
        ("numbers", numbers::cases()),
        ("pairs", pairs::cases()),
        ("quantities", quantities::cases()),
        ("replies", replies::cases()),
        ("replyrows", places::replies()),
        ("rewriting", rewriting::cases()),
        ("rooms", whole::rooms()),
        ("separators", sets::cases()),
        ("truncated", whole::truncated()),
        ("walks", walks::cases()),
        ("worked", worked::cases()),
    ];
    let mut groups: Vec<Group> = named
        .into_iter()
        .map(|(name, cases)| (name.to_string(), cases))
        .chain(places::files())
        .map(|(name, cases)| Group { name, cases })
        .collect();
    groups.sort_by(|one, other| one.name.cmp(&other.name));
    groups
}

impl Group {
    /// The bytes of the file.
    pub fn file(&self) -> Vec<u8> {
        let mut bytes = Vec::new();
        for told in &self.cases {
            told.case.encode(&mut bytes);
        }
        bytes
    }

    /// What is printed for the file.
    pub fn print(&self, out: &mut String) {
        out.push_str(&format!("file {}\n", self.name));
        for told in &self.cases {
            told.case.print(out);
        }
    }
}

/// Writes DIR/data/NAME for every group, DIR/stdout and DIR/args.
pub fn write(directory: &Path, groups: &[Group]) -> io::Result<()> {
    let data = directory.join("data");
    fs::create_dir_all(&data)?;
    let mut printed = String::new();
    let mut args = String::new();
    for group in groups {
        fs::write(data.join(&group.name), group.file())?;
        group.print(&mut printed);
        args.push_str(&group.name);
        args.push('\n');
    }
    fs::write(directory.join("stdout"), printed)?;
    fs::write(directory.join("args"), args)
}
