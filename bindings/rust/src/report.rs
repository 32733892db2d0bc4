//! What a checked document gives.

use std::iter::FusedIterator;
use std::ops::Range;

use crate::code::Code;
use crate::finding::{Finding, Record};
use crate::mark::{Mark, mark};
use crate::position::Position;
use crate::raw::{self, FINDING_WORDS};
use crate::refusal::Refusal;
use crate::texts::Texts;

/// The numbers of a checked document.
#[derive(Clone, Copy, PartialEq, Eq, Debug)]
pub(crate) struct Counts {
    pub(crate) total: u64,
    pub(crate) verses: u64,
    pub(crate) errors: u64,
    pub(crate) warnings: u64,
    pub(crate) infos: u64,
}

/// What a checked document gives: its findings with their texts, and its counts.
#[derive(Clone, PartialEq, Eq, Debug)]
pub struct Report {
    counts: Counts,
    tally: [u64; Code::COUNT],
    records: Vec<Record>,
    texts: Texts,
}

/// The counts by code of a list of findings.
fn tally(list: &[u64]) -> Result<[u64; Code::COUNT], Refusal> {
    let mut counts = [0; Code::COUNT];
    let mut out = [0; raw::TALLY_WORDS];
    raw::tally(list, &mut counts, &mut out);
    match out {
        [raw::DONE, ..] => Ok(counts),
        [_, number, place] => Err(Refusal { number, place }),
    }
}

impl Report {
    /// A report of the findings that have a text. A severity or code that is unknown, which no check writes, gives what the
    /// tally says of it.
    pub(crate) fn new(counts: Counts, list: &[u64], texts: Texts) -> Result<Report, Refusal> {
        let held = FINDING_WORDS * texts.len();
        let list = list.get(..held).unwrap_or_default();
        let tally = tally(list)?;
        let (findings, _) = list.as_chunks();
        let mut records = Vec::with_capacity(findings.len());
        for (words, place) in findings.iter().zip(0..) {
            records.push(Record::read(words).ok_or(Refusal { number: 11, place })?);
        }
        Ok(Report {
            counts,
            tally,
            records,
            texts,
        })
    }

    /// How many findings the document has.
    pub fn total(&self) -> u64 {
        self.counts.total
    }

    /// How many verses were visited.
    pub fn verses(&self) -> u64 {
        self.counts.verses
    }

    /// How many of the document's findings are errors.
    pub fn errors(&self) -> u64 {
        self.counts.errors
    }

    /// How many of the document's findings are warnings.
    pub fn warnings(&self) -> u64 {
        self.counts.warnings
    }

    /// How many of the document's findings are infos.
    pub fn infos(&self) -> u64 {
        self.counts.infos
    }

    /// The document's mark, from its errors, warnings and verses; these are those of the whole document where the report is cut.
    ///
    /// # Errors
    ///
    /// The numbers 14 and 15, as [`mark`](crate::mark()).
    pub fn mark(&self) -> Result<Mark, Refusal> {
        mark(self.errors(), self.warnings(), self.verses())
    }

    /// Whether the document has findings that a limit of the [`Checker`](crate::Checker) kept out of this report.
    pub fn is_cut(&self) -> bool {
        (self.records.len() as u64) < self.counts.total
    }

    /// The findings, in the order of the check.
    pub fn findings(&self) -> Findings<'_> {
        Findings {
            report: self,
            places: 0..self.records.len(),
        }
    }

    /// The finding at a place among them.
    pub fn get(&self, place: usize) -> Option<Finding<'_>> {
        let record = self.records.get(place)?;
        Some(Finding::new(record, self.texts.get(place)?))
    }

    /// The [position](Finding::position) of each finding, in the order of the findings.
    ///
    /// The source, lent as text or as bytes, is read once, whatever the number of findings.
    ///
    /// ```
    /// # use harkoxin::{Node, NodeKind, Table, Tape};
    /// # let table = Table::from("name=v\ncategory=verse\nrole=content\n");
    /// # let source = "λόγος \\v 2";
    /// # let nodes = [Node::new(NodeKind::Root, 0, 0, 0, 2), Node::new(NodeKind::Verse, 0, 11, 4, 0)];
    /// # let report = harkoxin::check(&table, source, &Tape::from_nodes(&nodes))?;
    /// for (finding, position) in report.findings().zip(report.positions(source)) {
    ///     println!("{position}: {}", finding.message());
    /// #   assert_eq!(position, finding.position(source));
    /// }
    /// # Ok::<(), harkoxin::Refusal>(())
    /// ```
    pub fn positions(&self, source: impl AsRef<[u8]>) -> Vec<Position> {
        let starts = self.findings().map(|finding| finding.span().start);
        Position::at_each(source.as_ref(), &starts.collect::<Vec<_>>())
    }

    /// How many of the findings have each code; a code's count stands at its [`index`](Code::index).
    pub fn tally(&self) -> &[u64; Code::COUNT] {
        &self.tally
    }
}

impl<'a> IntoIterator for &'a Report {
    type Item = Finding<'a>;
    type IntoIter = Findings<'a>;

    fn into_iter(self) -> Findings<'a> {
        self.findings()
    }
}

/// The findings of a [`Report`].
#[derive(Clone, Debug)]
pub struct Findings<'a> {
    report: &'a Report,
    places: Range<usize>,
}

impl<'a> Iterator for Findings<'a> {
    type Item = Finding<'a>;

    fn next(&mut self) -> Option<Finding<'a>> {
        self.report.get(self.places.next()?)
    }

    fn nth(&mut self, n: usize) -> Option<Finding<'a>> {
        self.report.get(self.places.nth(n)?)
    }

    fn size_hint(&self) -> (usize, Option<usize>) {
        self.places.size_hint()
    }
}

impl<'a> DoubleEndedIterator for Findings<'a> {
    fn next_back(&mut self) -> Option<Finding<'a>> {
        self.report.get(self.places.next_back()?)
    }
}

impl ExactSizeIterator for Findings<'_> {}

impl FusedIterator for Findings<'_> {}
