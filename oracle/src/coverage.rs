//! What a set of documents reached.

use std::collections::BTreeMap;
use std::fmt::Write;

use crate::diagnostic::DiagnosticCode;
use crate::document::{Document, kind};
use crate::forms::{FORMS, form_and_numbers};
use crate::parts::attached_at_top;
use crate::published::{Found, Validated};
use crate::refusals::refusal;
use crate::tallies::CODES;
use crate::unreadable;

/// Refusals by number run from 1 to this.
const LAST_REFUSAL: usize = 10;

#[derive(Default)]
pub struct Coverage {
    pub documents: u64,
    pub accepted: u64,
    pub overflowed: u64,
    /// Accepted documents without a finding.
    pub clean: u64,
    pub findings: u64,
    pub most_findings: usize,
    /// By number, from 0, which nothing has.
    pub refused: [u64; LAST_REFUSAL + 1],
    pub severities: [u64; 3],
    /// Findings by code and form, of those in `FORMS`.
    forms: BTreeMap<(u32, u64), u64>,
    /// Numbers attached to a chapter or verse among the root's children: they give no finding.
    pub attached: u64,
    /// Among the accepted.
    pub most_nodes: usize,
    pub deepest: usize,
}

impl Coverage {
    /// Refuses a document or takes the list that is owed for it, and counts it. An unforeseen
    /// panic of the published code and a message that no form has are errors.
    pub fn add(&mut self, document: &Document, lengths: (usize, usize)) -> Result<(), String> {
        self.documents += 1;
        if let Some((number, _)) = refusal(document, lengths.0, lengths.1) {
            self.refused[number as usize] += 1;
            return Ok(());
        }
        self.accepted += 1;
        self.most_nodes = self.most_nodes.max(document.node_count());
        self.deepest = self.deepest.max(depth(document));
        self.attached += attached_at_top(document) as u64;
        match unreadable::owed(document)? {
            Validated::Overflowed => self.overflowed += 1,
            Validated::Findings(list) => self.add_findings(&list)?,
        }
        Ok(())
    }

    fn add_findings(&mut self, list: &[Found]) -> Result<(), String> {
        self.findings += list.len() as u64;
        self.most_findings = self.most_findings.max(list.len());
        self.clean += u64::from(list.is_empty());
        for found in list {
            let (form, _, _) = form_and_numbers(found.code, &found.message)?;
            self.severities[found.severity as usize] += 1;
            let pair = (found.code, form);
            if !FORMS.contains(&pair) {
                return Err(format!("{pair:?} is outside the list of forms"));
            }
            *self.forms.entry(pair).or_default() += 1;
        }
        Ok(())
    }

    /// How many findings have a code and a form.
    fn of_form(&self, pair: (u32, u64)) -> u64 {
        self.forms.get(&pair).copied().unwrap_or(0)
    }

    /// A table of the counts that aren't 0.
    pub fn report(&self) -> String {
        let mut out = String::new();
        let mut line = |name: &str, count: u64| {
            if count > 0 {
                writeln!(out, "{name:<44}{count:>12}").expect("a string takes all");
            }
        };
        line("documents", self.documents);
        for number in 1..=LAST_REFUSAL {
            line(&format!("refused by {number}"), self.refused[number]);
        }
        line("accepted", self.accepted);
        line("  of these with a sum past 32 bits", self.overflowed);
        line("  of these without a finding", self.clean);
        line("findings", self.findings);
        for (name, count) in ["error", "warning", "info"].iter().zip(self.severities) {
            line(&format!("  {name}"), count);
        }
        for (code, form) in FORMS {
            line(
                &format!("  {code:>2} {} form {form}", code_name(code)),
                self.of_form((code, form)),
            );
        }
        line("attached numbers", self.attached);
        line("most findings of a document", self.most_findings as u64);
        line("most nodes of an accepted document", self.most_nodes as u64);
        line(
            "deepest nesting of an accepted document",
            self.deepest as u64,
        );
        out
    }

    /// What was never reached.
    pub fn unreached(&self) -> Vec<String> {
        let mut unreached = Vec::new();
        for (code, form) in FORMS {
            if self.of_form((code, form)) == 0 {
                unreached.push(format!("code {code} {} form {form}", code_name(code)));
            }
        }
        for number in 1..=LAST_REFUSAL {
            if self.refused[number] == 0 {
                unreached.push(format!("refusal {number}"));
            }
        }
        let others = [
            ("overflow", self.overflowed),
            ("document without a finding", self.clean),
            ("attached number", self.attached),
        ];
        let missing = others.iter().filter(|(_, count)| *count == 0);
        unreached.extend(missing.map(|(name, _)| name.to_string()));
        unreached
    }
}

/// The name of a code: the published one, or document 02's.
pub fn code_name(code: u32) -> &'static str {
    const NAMED: [DiagnosticCode; CODES - 1] = {
        use DiagnosticCode::*;
        [
            UnknownMarker,
            UnclosedMarker,
            StrayCloseMarker,
            StrayBackslash,
            MissingIdMarker,
            InvalidBookCode,
            DuplicateId,
            TextBeforeId,
            MissingChapterMarker,
            InvalidChapterSequence,
            DuplicateChapter,
            InvalidVerseSequence,
            VerseOutsideParagraph,
            NoteSubmarkerOutsideNote,
            NonEmptyBlankLine,
            LeadingZeros,
            MilestoneMismatch,
            InvalidAttributes,
            MissingChapterNumber,
            MissingVerseNumber,
            CharCrossesVerseBoundary,
            EmptyFigure,
            UnquotedAttributeValue,
            MissingRequiredAttribute,
            BodyParagraphBeforeChapter,
            EmptyWordMarker,
            MissingMilestoneSelfClose,
            InvalidTableColumnSequence,
            DeprecatedMarker,
            ImplicitClose,
            UnclosedNote,
            UnclosedAtEof,
            DefaultAttributeNotDefined,
            MisplacedNumberMarker,
            MissingSpaceBeforeNumber,
        ]
    };
    match code {
        unreadable::CODE => unreadable::NAME,
        published => NAMED[published as usize].as_str(),
    }
}

/// The most opens that nest in an accepted document.
pub fn depth(document: &Document) -> usize {
    let mut depth = 0usize;
    let mut deepest = 0;
    for node in document.nodes() {
        if node.kind == kind::MARKER_OPEN {
            depth += 1;
        } else if node.is_close() {
            depth = depth.saturating_sub(1);
        }
        deepest = deepest.max(depth);
    }
    deepest
}

#[cfg(test)]
mod tests {
    use super::*;
    use crate::samples;

    #[test]
    fn the_listing_example_is_counted() {
        let mut coverage = Coverage::default();
        coverage.add(&samples::listing(), (9, 9)).unwrap();
        coverage.add(&samples::listing(), (9, 8)).unwrap();
        assert_eq!((coverage.documents, coverage.accepted), (2, 1));
        assert_eq!(coverage.refused[10], 1);
        assert_eq!(coverage.severities, [0, 1, 0]);
        assert_eq!((coverage.most_nodes, coverage.deepest), (9, 1));
        let unreached = coverage.unreached();
        assert!(!unreached.contains(&"code 11 InvalidVerseSequence form 0".to_string()));
        assert!(!unreached.contains(&"refusal 10".to_string()));
        assert_eq!(unreached.len(), 33 + 9 + 3);
    }

    #[test]
    fn code_names_stand_at_their_numbers() {
        assert_eq!(code_name(4), "MissingIdMarker");
        assert_eq!(code_name(34), "MissingSpaceBeforeNumber");
        assert_eq!(code_name(35), "UnreadableVerseNumber");
    }
}
