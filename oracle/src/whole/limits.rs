//! Reports of a checker that has no lists yet, and limits that it may meet.

use harkoxin::{Checker, Table, Tape};

use super::findings::{severities, words_of};
use super::marks::same_mark;
use super::messages::room_for;
use super::{Comparison, Expected, FINDING_WORDS};
use crate::differ::agree;
use crate::rng::Rng;
use crate::tallies::tally;
use crate::texts::written_texts;

impl Comparison {
    /// The report holds the first findings, as many as both limits let; its counts are those of all.
    pub(super) fn limits(&mut self, expected: &Expected<'_>, rng: &mut Rng) -> Result<(), String> {
        let total = expected.texts.len();
        let bytes = expected.texts.iter().map(String::len).sum();
        let (most, room) = (room_for(rng, total), room_for(rng, bytes));
        let table = Table::new(self.slots.table.list());
        let tape = Tape::from_bytes(self.slots.tape.list());
        let mut checker = Checker::new().max_findings(most).max_text(room);
        let report = checker.check_bytes(&table, self.slots.source.list(), &tape);
        let report = report.map_err(|refusal| refusal.to_string())?;
        let within = expected.texts.iter().take(most).map(Some);
        let held = written_texts(within, room).ends.len();
        let (list, expected_list) = (words_of(&report), &expected.list[..held * FINDING_WORDS]);
        agree("findings within limits", list.as_slice(), expected_list)?;
        for (finding, text) in report.findings().zip(&expected.texts) {
            agree("a text within limits", finding.message(), text)?;
        }
        agree("a tally within limits", Ok(*report.tally()), tally(&list))?;
        agree("a report's total", report.total(), total as u64)?;
        agree("whether a report is cut", report.is_cut(), held < total)?;
        let counted = [report.errors(), report.warnings(), report.infos()];
        agree("a report's severities", counted, severities(&expected.list))?;
        agree("a report's verses", report.verses(), expected.verses)?;
        same_mark(&report, &expected.list, expected.verses)?;
        self.counts.limited(report.is_cut());
        Ok(())
    }
}
