//! The check and its texts in one call.

use harkoxin::raw::REPORT_WORDS;

use super::messages::{messages_answer, room_for};
use super::{Comparison, Expected, FINDING_WORDS, REFUSED, refused_words};
use crate::reached::Function;
use crate::rng::Rng;
use crate::texts::written_texts;

impl Comparison {
    /// Both answers say the refusal, and no list is written.
    pub(super) fn report_refused(
        &mut self,
        (number, place): (u64, u64),
        lengths: (usize, usize),
        rng: &mut Rng,
    ) -> Result<(), String> {
        let findings = rng.below(4);
        self.lend_report(lengths, findings, 60, rng);
        self.slots.report();
        self.counts.reached.answer(Function::Report, number);
        let messages = [REFUSED, number, place, 0, 0];
        let answer = [&refused_words(number, place)[..], &messages].concat();
        self.expect_lists(0, &[], &answer)?;
        self.expect_texts(&[], &[])
    }

    /// The texts are those of the findings that the list can hold.
    pub(super) fn report_checked(
        &mut self,
        expected: &Expected<'_>,
        lengths: (usize, usize),
        rng: &mut Rng,
    ) -> Result<(), String> {
        let bytes = expected.texts.iter().map(String::len).sum();
        self.lend_report(lengths, expected.texts.len(), bytes, rng);
        self.slots.report();
        let (written, check) = self.expected_answer(expected);
        let held = expected.texts[..written].iter().map(Some);
        let texts = written_texts(held, self.slots.text.len());
        let messages = messages_answer(&texts);
        self.counts.reached.answer(Function::Report, messages[1]);
        let list = &expected.list[..written * FINDING_WORDS];
        let answer = [&check[..], &messages].concat();
        self.expect_lists(expected.document.node_count(), list, &answer)?;
        self.expect_texts(&texts.ends, &texts.bytes)
    }

    /// The lists by the seed: long enough for so many findings and for texts of so many bytes, or not.
    fn lend_report(
        &mut self,
        lengths: (usize, usize),
        findings: usize,
        bytes: usize,
        rng: &mut Rng,
    ) {
        self.lend_lists(lengths, findings, REPORT_WORDS, rng);
        self.slots.ends.fill(room_for(rng, findings), rng);
        self.slots.text.fill(room_for(rng, bytes), rng);
        let ends = self.slots.ends.len();
        self.counts.lent(&[8 * ends, self.slots.text.len()]);
    }
}
