//! A reading gate for X12 842 nonconformance reports whose verdicts are proved, called from Rust.
//!
//! A report is one transaction, ST to SE. [`Tables`] own room for the records of its segments and levels:
//!
//! ```
//! use stormhlaw::{Code, How, Separators, Tables};
//!
//! let report = b"ST*842*0001~BNR*11*NR7*20240301~HL*1**RP*1~HL*2*1*I*0~NCD*1~NCA**R1~SE*7*0001~";
//! let mut tables = Tables::for_input(report);
//! tables.read(report, Separators::STANDARD, How::new())?;
//!
//! let item = tables.levels()[1];
//! assert_eq!((item.code(), item.parent, item.depth), (Some(Code::Item), 1, 2));
//! let hl = item.hl(tables.segments()).and_then(|record| record.bytes(report));
//! assert_eq!(hl, Some(&b"HL*2*1*I*0"[..]));
//!
//! let fault = tables.segments()[4];
//! assert_eq!((fault.bytes(report), fault.level), (Some(&b"NCD*1"[..]), 2));
//! assert_eq!(fault.level(tables.levels()), Some(&item));
//! # Ok::<(), stormhlaw::Refusal>(())
//! ```
//!
//! A refusal names the rule, the segment, the byte and the element:
//!
//! ```
//! use stormhlaw::{How, Reason, Separators, Tables};
//!
//! let report = b"ST*842*0001~BNR*11*NR7*20240301~HL*1**RP*1~HL*2*1*F*0~";
//! let refusal = Tables::for_input(report).read(report, Separators::STANDARD, How::new()).unwrap_err();
//! assert_eq!(refusal.reason, Reason::LevelNotPermitted);
//! assert_eq!(refusal.to_string(), "refused 14 segment 4 byte 43 element 2");
//! ```
//!
//! A [`SegmentRecord`] tells where a segment stands; a [`Segment`] is its bytes, and gives its elements and their
//! components:
//!
//! ```
//! # use stormhlaw::{How, Separators, Tables};
//! let report = b"ST*842*0001~BNR*11*NR7*20240301~HL*1**I~NCD*1~NCA**R1**5*EA:2:10~SE*6*0001~";
//! let mut tables = Tables::for_input(report);
//! tables.read(report, Separators::STANDARD, How::new())?;
//!
//! let nca = tables.segments()[4].segment(report, Separators::STANDARD).unwrap();
//! assert_eq!((nca.tag(), nca.element(5)), (&b"NCA"[..], &b"EA:2:10"[..]));
//! assert_eq!((nca.component(5, 1), nca.component(5, 3)), (&b"EA"[..], &b"10"[..]));
//! # Ok::<(), stormhlaw::Refusal>(())
//! ```
//!
//! A BIN carries an attachment. Its element 1 is a count, and element 2 is exactly so many bytes of any kind, which are one
//! component:
//!
//! ```
//! # use stormhlaw::{How, Separators, Tables};
//! let report = b"ST*842*0001~BNR*11*NR7*20240301~HL*1**I~NCD*1~EFI*00~BIN*5*\0*~:\xff~SE*7*0001~";
//! let mut tables = Tables::for_input(report);
//! tables.read(report, Separators::STANDARD, How::new())?;
//!
//! let record = tables.segments().iter().find(|record| record.row == 55);
//! let bin = record.and_then(|record| record.segment(report, Separators::STANDARD)).unwrap();
//! assert_eq!(bin.element(2), b"\0*~:\xff");
//! assert_eq!(bin.component(2, 1), bin.element(2));
//! # Ok::<(), stormhlaw::Refusal>(())
//! ```
//!
//! A quantity, such as element 4 of an NCA, comes as whole numbers, and is displayed as a plain decimal:
//!
//! ```
//! # use stormhlaw::{number, Segment, Separators};
//! let nca = Segment::new(b"NCA**R1**-0.50*EA", Separators::STANDARD);
//! let quantity = number(nca.element(4)).unwrap();
//! assert_eq!((quantity.value(), quantity.places(), quantity.exponent()), (-50, 2, 0));
//! assert_eq!(quantity.to_string(), "-0.50");
//! ```
//!
//! The levels are listed under their parents, with the segments that belong to each, whatever order the report has them in:
//!
//! ```
//! # use stormhlaw::{How, Separators, Tables};
//! let report = b"ST*842*0001~BNR*11*NR7*20240301~HL*A**RP~HL*B**RP~NCD*1~HL*C*A*I~SE*7*0001~";
//! let mut tables = Tables::for_input(report);
//! tables.read(report, Separators::STANDARD, How::new())?;
//!
//! let mut lines = String::new();
//! for level in tables.outline() {
//!     let (indent, code) = ("  ".repeat(level.depth() - 1), level.code().unwrap());
//!     let name = String::from_utf8_lossy(level.name(report, Separators::STANDARD).unwrap());
//!     lines += &format!("{indent}{code:?} {name}, segments {:?}\n", level.range());
//! }
//! assert_eq!(lines, "Report A, segments 3..4\n  Item C, segments 6..7\nReport B, segments 4..6\n");
//! # Ok::<(), stormhlaw::Refusal>(())
//! ```
//!
//! Line ends between segments are skipped, or refused where [`How`] asks for a strict reading. A rewriting is always strict.
//! A report is read as a nonconformance report, or as a storage-quality reply where [`How`] names that [`Profile`], and so it
//! is rewritten.
//!
//! [`read`], [`rewrite`], [`walk`] and [`outline()`] do the same in records and numbers that the caller lends, and allocate
//! nothing; nor do [`Segment`], which looks up parts of a segment, and [`number`], which reads a quantity. Nothing is kept
//! between calls, no input makes a function panic, and every function may be called from several threads at once.

#![deny(unsafe_code)]
#![warn(missing_docs)]

mod answer;
mod how;
mod lookup;
mod outline;
mod quantities;
pub mod raw;
mod reading;
mod records;
mod rewriting;
mod separators;
mod tables;
mod valid;
mod walking;

pub use answer::{Accepted, Reason, Refusal};
pub use how::{How, LineEnds, Profile};
pub use lookup::Segment;
pub use outline::{outline, Outline, OutlineLevel};
pub use quantities::{number, Number};
pub use reading::{read, LONGEST};
pub use records::{Code, Level, SegmentRecord};
pub use rewriting::rewrite;
pub use separators::Separators;
pub use tables::{Tables, DEFAULT_LEVELS};
pub use valid::Valid;
pub use walking::{walk, WalkReason, WalkRefusal};
