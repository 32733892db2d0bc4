//! The check with lists that are kept from one document to the next.

use crate::document::{Table, Tape};
use crate::raw::{self, FINDING_WORDS, OpenStart};
use crate::reading::read_over;
use crate::refusal::Refusal;
use crate::report::{Counts, Report};
use crate::texts::{self, Room, Texts, lengthen};

/// The most nodes that number 4 lets pass.
const MOST_NODES: usize = 65_535;

// Where the spans of 65,535 nodes don't overlap in a source of 1,048,576 bytes, both limits are out of reach: a node has at
// most five findings, an attribute besides one for each two bytes; a text has at most 90 bytes of its own, and shows no part
// of the source more than four times.
const MAX_FINDINGS: usize = 1 << 20;
const MAX_TEXT: usize = 1 << 26;

/// The bytes of a document.
#[derive(Clone, Copy)]
struct Lent<'a> {
    table: &'a [u8],
    source: &'a [u8],
    tape: &'a [u8],
}

/// What a report call gave: the counts, how many findings the list holds, how many bytes were lent for their texts, and the
/// answer about the texts.
struct ReportAnswer {
    counts: Counts,
    written: u64,
    bytes: usize,
    texts: [u64; raw::MESSAGES_WORDS],
}

/// Checks documents one after another and keeps its lists between them.
///
/// ```
/// use harkoxin::{Checker, Node, NodeKind, Table, Tape};
///
/// let table = Table::from("name=v\ncategory=verse\nrole=content\n");
/// let nodes = [
///     Node::new(NodeKind::Root, 0, 0, 0, 2),
///     Node::new(NodeKind::Verse, 0, 0, 4, 0),
/// ];
/// let mut checker = Checker::new();
/// for (source, found) in [("\\v 1", 3), ("\\v 2", 4)] {
///     let report = checker.check(&table, source, &Tape::from_nodes(&nodes))?;
///     assert_eq!(report.findings().len(), found);
/// }
/// # Ok::<(), harkoxin::Refusal>(())
/// ```
#[derive(Clone, Debug)]
pub struct Checker {
    seen: Vec<u32>,
    opens: Vec<OpenStart>,
    list: Vec<u64>,
    room: Room,
    /// The nodes of a text.
    nodes: Vec<u8>,
    max_findings: usize,
    max_text: usize,
}

impl Default for Checker {
    fn default() -> Self {
        Checker {
            seen: Vec::new(),
            opens: Vec::new(),
            list: Vec::new(),
            room: Room::default(),
            nodes: Vec::new(),
            max_findings: MAX_FINDINGS,
            max_text: MAX_TEXT,
        }
    }
}

impl Checker {
    /// A checker that has no lists yet.
    pub fn new() -> Self {
        Checker::default()
    }

    /// Lets a report hold fewer findings than the 1,048,576 that it holds otherwise. A document whose spans don't overlap never
    /// has as many.
    #[must_use]
    pub fn max_findings(mut self, findings: usize) -> Self {
        self.max_findings = findings.min(MAX_FINDINGS);
        self.list.clear();
        self
    }

    /// Lets the texts of a report take fewer bytes than the 67,108,864 that they take otherwise at most. A finding whose text has
    /// no room is left out of the report, with all behind it. The texts of a document whose spans don't overlap never take as
    /// many.
    #[must_use]
    pub fn max_text(mut self, bytes: usize) -> Self {
        self.max_text = bytes.min(MAX_TEXT);
        self
    }

    /// Checks a document.
    ///
    /// # Errors
    ///
    /// The numbers 1 to 9. The library is proved to give no finding without a text; if it did, its number 12 would be handed
    /// on, and its number 11 for a finding of an unknown severity or code.
    pub fn check(
        &mut self,
        table: &Table<'_>,
        source: &str,
        tape: &Tape<'_>,
    ) -> Result<Report, Refusal> {
        self.check_bytes(table, source.as_bytes(), tape)
    }

    /// Checks a document whose source may not be UTF-8, which number 3 turns back.
    ///
    /// # Errors
    ///
    /// As [`check`](Checker::check).
    pub fn check_bytes(
        &mut self,
        table: &Table<'_>,
        source: &[u8],
        tape: &Tape<'_>,
    ) -> Result<Report, Refusal> {
        let lent = Lent {
            table: table.as_bytes(),
            source,
            tape: tape.as_bytes(),
        };
        let answer = self.find(lent, tape.len())?;
        let texts = self.gather(lent, &answer)?;
        Report::new(answer.counts, &self.list, texts)
    }

    /// Reads a text in USFM and checks it, as [`OwnedTape::read`](crate::OwnedTape::read) and [`check`](Checker::check) do.
    ///
    /// # Errors
    ///
    /// Those of the reading, numbers 1, 2, 16 and 17; then 4 for a text of over 65,535 nodes and 8 for more than 64 open markers.
    pub fn check_text(&mut self, table: &Table<'_>, text: &str) -> Result<Report, Refusal> {
        self.check_text_bytes(table, text.as_bytes())
    }

    /// Reads and checks a text that may not be UTF-8, which number 3 turns back.
    ///
    /// # Errors
    ///
    /// As [`check_text`](Checker::check_text).
    pub fn check_text_bytes(&mut self, table: &Table<'_>, text: &[u8]) -> Result<Report, Refusal> {
        let mut nodes = std::mem::take(&mut self.nodes);
        let read = read_over(table, text, &mut nodes);
        let report = read.and_then(|len| {
            let tape = nodes.get(..len).unwrap_or_default();
            self.check_bytes(table, text, &Tape::from_bytes(tape))
        });
        self.nodes = nodes;
        report
    }

    /// Has the findings and their texts written: by one call, or by a second where there are more findings than nodes.
    fn find(&mut self, lent: Lent<'_>, nodes: usize) -> Result<ReportAnswer, Refusal> {
        // A longer tape is turned back by number 4 before the working lists are looked at.
        let nodes = nodes.min(MOST_NODES);
        lengthen(&mut self.seen, nodes);
        lengthen(&mut self.opens, nodes);
        let answer = self.report(lent, nodes.min(self.max_findings))?;
        let wanted = answer.counts.total.min(self.max_findings as u64);
        if wanted <= answer.written {
            return Ok(answer);
        }
        self.report(lent, wanted as usize)
    }

    /// One call, with room for at least so many findings.
    fn report(&mut self, lent: Lent<'_>, findings: usize) -> Result<ReportAnswer, Refusal> {
        lengthen(&mut self.list, FINDING_WORDS * findings);
        let findings = self.list.len() / FINDING_WORDS;
        self.room.lengthen(findings, self.max_text);
        let bytes = self.room.bytes.len().min(self.max_text);
        let mut out = [0; raw::REPORT_WORDS];
        raw::report(
            lent.table,
            lent.source,
            lent.tape,
            &mut self.seen,
            &mut self.opens,
            &mut self.list,
            &mut self.room.ends,
            &mut self.room.bytes[..bytes],
            &mut out,
        );
        let [verdict, number, place, total, written, rest @ ..] = out;
        if verdict == raw::REFUSED {
            return Err(Refusal { number, place });
        }
        let [verses, errors, warnings, infos, texts @ ..] = rest;
        let counts = Counts {
            total,
            verses,
            errors,
            warnings,
            infos,
        };
        Ok(ReportAnswer {
            counts,
            written,
            bytes,
            texts,
        })
    }

    /// The texts of the findings that the list holds: those that are written, and by further calls those that had no room.
    fn gather(&mut self, lent: Lent<'_>, answer: &ReportAnswer) -> Result<Texts, Refusal> {
        let words = FINDING_WORDS.saturating_mul(answer.written as usize);
        let list = self.list.get(..words).unwrap_or_default();
        let messages = |list: &[u64], ends: &mut [u64], text: &mut [u8]| {
            let mut out = [0; raw::MESSAGES_WORDS];
            raw::messages(
                lent.table,
                lent.source,
                lent.tape,
                list,
                ends,
                text,
                &mut out,
            );
            out
        };
        let (room, limit) = (&mut self.room, self.max_text);
        texts::gather(list, room, limit, answer.bytes, answer.texts, messages)
    }
}
