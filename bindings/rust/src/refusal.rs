//! What turns a call back.

use std::error::Error;
use std::fmt;

/// Why a call was turned back: a number, with a place.
///
/// A document is turned back by the numbers 1 to 9, a mark by 14 and 15, a text that is read by 1 to 3, 16 and 17. The others are
/// answers of the functions in [`raw`](crate::raw): 10 of a check, 11 of a tally, 12 and 13 of a finding's text, 18 of a reading.
#[derive(Clone, Copy, PartialEq, Eq, Hash, Debug)]
pub struct Refusal {
    /// Which condition turned it back.
    pub number: u64,
    /// Where: a byte, a node, a record or a length, by the number.
    pub place: u64,
}

/// Each number's condition and what its place counts, from 1 on.
const CONDITIONS: [(&str, &str); 18] = [
    ("the marker table breaks its layout", "table byte"),
    ("the source is longer than 1,048,576 bytes", "place"),
    ("the source isn't UTF-8", "source byte"),
    (
        "the tape is empty, no whole number of nodes, or longer than 65,535 nodes",
        "place",
    ),
    (
        "a node's kind is over 8, or the root is missing at node 0 or present elsewhere",
        "node",
    ),
    (
        "a node's span leaves the source or splits a character",
        "node",
    ),
    ("the links don't pair each open with its close", "node"),
    ("a node opens inside 64 open ones", "node"),
    (
        "a chapter's or a verse's name is longer than its table name, and the cut splits a character",
        "node",
    ),
    (
        "a working list has fewer entries than the tape has nodes",
        "nodes",
    ),
    (
        "a findings list has a rest, or a severity or code that is unknown",
        "record",
    ),
    ("the finding has no text in this document", "place"),
    ("the list is too short for the text", "bytes needed"),
    (
        "a count of errors, warnings or verses is over 1,000,000",
        "place",
    ),
    ("there are no verses to mark", "place"),
    (
        "a marker isn't in the table, or is of category other",
        "source byte",
    ),
    (
        "a close is without its open innermost, a milestone isn't closed, or a character or note is open where a block or a chapter begins or the text ends",
        "source byte",
    ),
    ("the list is too short for the nodes", "nodes needed"),
];

const UNKNOWN: (&str, &str) = ("the number is unknown", "place");

impl Refusal {
    fn condition(&self) -> (&'static str, &'static str) {
        let at = (self.number as usize).wrapping_sub(1);
        CONDITIONS.get(at).copied().unwrap_or(UNKNOWN)
    }

    /// The number's condition, in words.
    ///
    /// ```
    /// let refusal = harkoxin::Refusal { number: 3, place: 7 };
    /// assert_eq!(refusal.explanation(), "the source isn't UTF-8");
    /// assert_eq!(
    ///     refusal.to_string(),
    ///     "refused by number 3 (source byte 7): the source isn't UTF-8"
    /// );
    /// ```
    pub fn explanation(&self) -> &'static str {
        self.condition().0
    }
}

impl fmt::Display for Refusal {
    fn fmt(&self, f: &mut fmt::Formatter<'_>) -> fmt::Result {
        let Refusal { number, place } = self;
        let (words, unit) = self.condition();
        write!(f, "refused by number {number} ({unit} {place}): {words}")
    }
}

impl Error for Refusal {}
