//! One finding of a report.

use std::fmt;
use std::ops::Range;

use crate::code::{Code, Severity};
use crate::position::Position;
use crate::raw::FINDING_WORDS;

/// The words of a finding, read.
#[derive(Clone, Copy, PartialEq, Eq, Debug)]
pub(crate) struct Record {
    severity: Severity,
    code: Code,
    start: usize,
    len: usize,
    node: usize,
    form: usize,
    numbers: [u64; 2],
}

impl Record {
    /// `None` where the severity or the code is unknown, of which no list of a check has any.
    pub(crate) fn read(words: &[u64; FINDING_WORDS]) -> Option<Record> {
        let &[severity, code, start, len, node, form, first, second] = words;
        Some(Record {
            severity: Severity::from_index(severity as usize)?,
            code: Code::from_index(code as usize)?,
            start: start as usize,
            len: len as usize,
            node: node as usize,
            form: form as usize,
            numbers: [first, second],
        })
    }
}

/// One thing that is wrong in a document, with its text.
#[derive(Clone, Copy, PartialEq, Eq, Debug)]
pub struct Finding<'a> {
    record: &'a Record,
    message: &'a str,
}

impl<'a> Finding<'a> {
    pub(crate) fn new(record: &'a Record, message: &'a str) -> Self {
        Finding { record, message }
    }

    /// How grave it is.
    pub fn severity(&self) -> Severity {
        self.record.severity
    }

    /// What it is about.
    pub fn code(&self) -> Code {
        self.record.code
    }

    /// The bytes of the source that it is about; `0..0` where it is about the whole document. Both ends lie between
    /// characters of the source that was checked.
    pub fn span(&self) -> Range<usize> {
        let Record { start, len, .. } = *self.record;
        start..start.saturating_add(len)
    }

    /// The line and the column, in characters and in bytes, at which it begins in the source that was checked, lent as text or as
    /// bytes; a finding about the whole document stands at line 1, column 1.
    ///
    /// A call reads the source up to the finding. [`Report::positions`](crate::Report::positions) reads it once for all findings.
    ///
    /// In another source than the checked one the finding may begin past the end: its position is then that of the end. Where it
    /// would begin inside a character, this character is counted too.
    pub fn position(&self, source: impl AsRef<[u8]>) -> Position {
        Position::at(source.as_ref(), self.record.start)
    }

    /// The node whose span it has, as a place on the tape; 0, the root, where it is about the whole document.
    pub fn node(&self) -> usize {
        self.record.node
    }

    /// Which of the texts of its code it has, from 0. `UnreadableVerseNumber`: 0 where the label has no number, 1 where its number
    /// is too large.
    pub fn form(&self) -> usize {
        self.record.form
    }

    /// Two numbers whose meaning goes by the code; 0 where it has none.
    ///
    /// `InvalidChapterSequence` and `InvalidTableColumnSequence`: expected and found. `DuplicateChapter`: the chapter.
    /// `InvalidVerseSequence`: the expected number, and the byte of its letter or 0. `DefaultAttributeNotDefined`: the node of
    /// the marker around it.
    pub fn numbers(&self) -> [u64; 2] {
        self.record.numbers
    }

    /// Its text; the published one, where its code is.
    pub fn message(&self) -> &'a str {
        self.message
    }
}

/// `warning[InvalidVerseSequence] 16..21: expected verse 1 but found 2`
impl fmt::Display for Finding<'_> {
    fn fmt(&self, f: &mut fmt::Formatter<'_>) -> fmt::Result {
        let (severity, code) = (self.severity(), self.code());
        write!(f, "{severity}[{code}] {:?}: {}", self.span(), self.message)
    }
}

#[cfg(test)]
mod tests {
    use super::*;

    #[test]
    fn words_are_read_in_their_order() {
        let record = Record::read(&[2, 35, 3, 4, 5, 6, 7, 8]).unwrap();
        let finding = Finding::new(&record, "text");
        assert_eq!(finding.severity(), Severity::Info);
        assert_eq!(finding.code(), Code::UnreadableVerseNumber);
        assert_eq!(finding.span(), 3..7);
        assert_eq!((finding.node(), finding.form()), (5, 6));
        assert_eq!(finding.numbers(), [7, 8]);
        assert_eq!(finding.message(), "text");
    }

    #[test]
    fn unknown_severities_and_codes_are_no_finding() {
        assert_eq!(Record::read(&[3, 0, 0, 0, 0, 0, 0, 0]), None);
        assert_eq!(Record::read(&[0, 36, 0, 0, 0, 0, 0, 0]), None);
        assert_eq!(Record::read(&[u64::MAX; 8]), None);
    }

    #[test]
    fn a_span_without_end_stops_at_the_largest_number() {
        let record = Record::read(&[0, 0, u64::MAX, 9, 0, 0, 0, 0]).unwrap();
        assert_eq!(Finding::new(&record, "").span(), usize::MAX..usize::MAX);
    }
}
