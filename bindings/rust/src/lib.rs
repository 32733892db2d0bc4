//! Checks a USFM document: from a marker table, a source and the tape of nodes that a parser made of it, the list of what is
//! wrong. For a text without a parser it reads the tape itself.
//!
//! The check itself is a library in Rattle, a port of the `validate` of `usfm3`, in which each function is proved to meet its
//! contract. This crate calls it, gives each finding with its text, and follows the names of `usfm3`.
//!
//! ```
//! use harkoxin::{Code, Node, NodeKind, Severity, Table, Tape};
//!
//! let table = Table::from(
//!     "name=id\ncategory=identification\nrole=excluded\n\
//!      name=c\ncategory=chapter\nrole=content\n\
//!      name=v\ncategory=verse\nrole=content\n\
//!      name=p\ncategory=paragraph\nrole=boundary\n",
//! );
//! let source = "\\id GEN\n\\c 1\n\\p\n\\v 2 Word";
//! // Kind, marker, start, len and link of each node.
//! let nodes = [
//!     Node::new(NodeKind::Root, 0, 0, 25, 9),
//!     Node::new(NodeKind::MarkerOpen, 0, 0, 3, 3),
//!     Node::new(NodeKind::Text, 0, 3, 5, 0),
//!     Node::new(NodeKind::BlockEnd, 0, 8, 0, 0),
//!     Node::new(NodeKind::Chapter, 1, 8, 5, 1),
//!     Node::new(NodeKind::MarkerOpen, 3, 13, 2, 8),
//!     Node::new(NodeKind::Verse, 2, 16, 5, 2),
//!     Node::new(NodeKind::Text, 0, 21, 4, 0),
//!     Node::new(NodeKind::BlockEnd, 3, 25, 0, 0),
//! ];
//!
//! let report = harkoxin::check(&table, source, &Tape::from_nodes(&nodes))?;
//! assert_eq!((report.total(), report.verses()), (1, 1));
//! for finding in &report {
//!     assert_eq!(finding.severity(), Severity::Warning);
//!     assert_eq!(finding.code(), Code::InvalidVerseSequence);
//!     assert_eq!(&source[finding.span()], "\\v 2 ");
//!     assert_eq!(finding.position(source).to_string(), "4:1");
//!     assert_eq!(finding.message(), "expected verse 1 but found 2");
//! }
//! assert_eq!(report.mark()?.to_string(), "92.50");
//! # Ok::<(), harkoxin::Refusal>(())
//! ```
//!
//! # Texts without a parser
//!
//! [`check_text`] reads a text in USFM to a tape of its own and checks it; [`OwnedTape::read`] gives the tape. The repository's
//! `tables/usfm-3.1.txt` is a table for it.
//!
//! ```
//! use harkoxin::{Refusal, Table, check_text};
//!
//! let table = Table::from(
//!     "name=id\ncategory=identification\nrole=excluded\n\
//!      name=c\ncategory=chapter\nrole=content\n\
//!      name=v\ncategory=verse\nrole=content\n\
//!      name=p\ncategory=paragraph\nrole=boundary\n\
//!      name=f\ncategory=note\nrole=excluded\n",
//! );
//! let report = check_text(&table, "\\id GEN\n\\c 1\n\\p\n\\v 2 Word\\f + text\\f*")?;
//! assert_eq!(report.get(0).unwrap().message(), "expected verse 1 but found 2");
//!
//! // A note must be closed: here the text ends in it.
//! let refused = check_text(&table, "\\p Word\\f + text");
//! assert_eq!(refused, Err(Refusal { number: 17, place: 16 }));
//! # Ok::<(), Refusal>(())
//! ```
//!
//! # What is lent
//!
//! Nothing is required of a caller. A table that breaks its layout, bytes that aren't UTF-8, a tape whose links don't pair: each
//! gives a [`Refusal`] with its number and place, and no call panics. Nothing is copied on the way in.
//!
//! # Memory
//!
//! A report holds its findings and their texts. Spans on a tape may overlap, so that a small tape can have more findings and
//! longer texts than memory holds; a [`Checker`] has limits for both, and [`Report::is_cut`] says whether they were met. The
//! counts are those of the whole list all the same.
//!
//! The tape of a text has a node of 16 bytes for each marker, close and run of text: most take as much memory as the text or twice
//! that, none more than 16 times that and 16 bytes.
//!
//! # Threads
//!
//! The library keeps nothing between calls. Each thread can have a [`Checker`] of its own.

#![forbid(unsafe_op_in_unsafe_fn)]
#![deny(unsafe_code)]
#![warn(missing_docs)]

#[cfg(not(target_endian = "little"))]
compile_error!(
    "a tape's nodes are little-endian, so that nodes in memory are a tape on a little-endian target alone"
);

#[cfg(not(target_pointer_width = "64"))]
compile_error!("the library counts in 64 bits");

mod checker;
mod code;
mod document;
mod finding;
mod mark;
mod node;
mod position;
#[allow(unsafe_code)]
pub mod raw;
mod reading;
mod refusal;
mod report;
mod texts;

pub use checker::Checker;
pub use code::{Code, Severity};
pub use document::{Table, Tape};
pub use finding::Finding;
pub use mark::{Mark, mark};
pub use node::{MarkerId, Node, NodeKind};
pub use position::Position;
pub use reading::OwnedTape;
pub use refusal::Refusal;
pub use report::{Findings, Report};

/// Checks a document.
///
/// For many documents one after another, a [`Checker`] keeps its lists between them.
///
/// # Errors
///
/// The numbers 1 to 9, as [`Checker::check`].
pub fn check(table: &Table<'_>, source: &str, tape: &Tape<'_>) -> Result<Report, Refusal> {
    Checker::new().check(table, source, tape)
}

/// Checks a document whose source may not be UTF-8, which number 3 turns back.
///
/// ```
/// use harkoxin::{Refusal, Table, Tape, check_bytes};
///
/// let refused = check_bytes(&Table::from(""), b"caf\xE9", &Tape::from_bytes(&[0; 16]));
/// assert_eq!(refused, Err(Refusal { number: 3, place: 3 }));
/// ```
///
/// # Errors
///
/// The numbers 1 to 9, as [`Checker::check`].
pub fn check_bytes(table: &Table<'_>, source: &[u8], tape: &Tape<'_>) -> Result<Report, Refusal> {
    Checker::new().check_bytes(table, source, tape)
}

/// Reads a text in USFM and checks it: for texts that no parser has read.
///
/// For many texts one after another, a [`Checker`] keeps its lists between them.
///
/// # Errors
///
/// Numbers 1, 2, 4, 8, 16 and 17, as [`Checker::check_text`].
pub fn check_text(table: &Table<'_>, text: &str) -> Result<Report, Refusal> {
    Checker::new().check_text(table, text)
}

/// Reads and checks a text that may not be UTF-8, which number 3 turns back.
///
/// # Errors
///
/// As [`check_text`], and number 3.
pub fn check_text_bytes(table: &Table<'_>, text: &[u8]) -> Result<Report, Refusal> {
    Checker::new().check_text_bytes(table, text)
}
