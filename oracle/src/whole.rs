//! The whole check, its texts, its tally, its mark and its reading of texts beside what the documents and the published code give:
//! answers, findings, texts, nodes, the quotation account, and every element of every lent list with the bytes around it.

mod accounts;
mod counts;
mod findings;
mod limits;
mod marks;
mod messages;
mod readings;
mod reports;
mod slots;
mod workers;

use harkoxin::raw::OpenStart;
use harkoxin::{Checker, Report, Table, Tape};

use crate::coverage::code_name;
use crate::differ::agree;
use crate::document::Document;
use crate::faults;
use crate::published::{Validated, try_validate};
use crate::reached::Function;
use crate::refusals::{refusal, verses_visited, working_list_refusal};
use crate::rng::Rng;
use crate::texts::{Reader, requests};

use accounts::same_account;
pub use counts::Counts;
use findings::{
    between_its_own, same_counts, same_findings, same_nodes, same_positions, same_unreadable,
    severities, words_of,
};
use marks::same_mark;
use slots::Slots;
pub use workers::{
    Source, all_threads, compare_lists, compare_seeds, expect_all_reached, failure_message,
    share_out,
};

/// Words of an answer: verdict, number, place, total, written, verses, errors, warnings, infos.
pub const ANSWER_WORDS: usize = 9;
pub const FINDING_WORDS: usize = 8;

const CHECKED: u64 = 0;
const CUT: u64 = 1;
const REFUSED: u64 = 2;

const NODE: usize = 4;
const FIRST: usize = 6;

/// What a check of an accepted document must give.
struct Expected<'a> {
    document: &'a Document,
    reader: Reader<'a>,
    /// Its findings, eight words each, and their texts.
    list: Vec<u64>,
    texts: Vec<String>,
    verses: u64,
}

impl Expected<'_> {
    fn nodes(&self) -> u64 {
        self.document.node_count() as u64
    }
}

/// The answer of a check that is turned back.
fn refused_words(number: u64, place: u64) -> [u64; ANSWER_WORDS] {
    [REFUSED, number, place, 0, 0, 0, 0, 0, 0]
}

/// Compares documents one after another; its lists and its checker are kept between them.
#[derive(Default)]
pub struct Comparison {
    slots: Slots,
    checker: Checker,
    pub counts: Counts,
}

impl Comparison {
    /// Compares all that is said of the document. The working lists have so many elements, and are else chosen by the seed,
    /// as all other lists are.
    pub fn compare(
        &mut self,
        document: &Document,
        seed: u64,
        lengths: (usize, usize),
    ) -> Result<(), String> {
        faults::at_seed(seed);
        let mut rng = Rng::new(seed.rotate_left(32));
        self.counts.documents += 1;
        let parts = [&document.table, &document.source, &document.tape];
        self.counts.lent(&parts.map(Vec::len));
        self.slots.lend(document, &mut rng);
        match refusal(document, usize::MAX, usize::MAX) {
            Some(refused) => self.refused(document, refused, lengths, &mut rng)?,
            None => self.accepted(document, lengths, &mut rng)?,
        }
        self.reading(&document.table, &document.source, &mut rng)?;
        self.slots.expect_document()
    }

    /// Compares the list of an accepted document alone: without code 35 it is the published one, texts included, and the findings
    /// of code 35 are the plain ones in their order, each in its place among those of its node. What is refused isn't looked at.
    pub fn compare_list(&mut self, document: &Document, seed: u64) -> Result<(), String> {
        faults::at_seed(seed);
        self.counts.documents += 1;
        if refusal(document, usize::MAX, usize::MAX).is_some() {
            return Ok(());
        }
        let table = Table::new(&document.table);
        let tape = Tape::from_bytes(&document.tape);
        let report = self.checker.check_bytes(&table, &document.source, &tape);
        let report = report.map_err(|refusal| refusal.to_string())?;
        let list = words_of(&report);
        match try_validate(document)? {
            Validated::Findings(found) => same_findings(&report, &found)?,
            Validated::Overflowed => self.counts.past_32_bits += 1,
        }
        same_unreadable(document, &list, false)?;
        between_its_own(&list)?;
        self.counts.accepted(document.node_count(), &list);
        Ok(())
    }

    fn refused(
        &mut self,
        document: &Document,
        (number, place): (u32, u64),
        lengths: (usize, usize),
        rng: &mut Rng,
    ) -> Result<(), String> {
        let number = u64::from(number);
        let report = self.report();
        let refused = report.err().map(|refusal| (refusal.number, refusal.place));
        agree("a report's refusal", refused, Some((number, place)))?;
        self.counts.reached.answer(Function::Checker, number);
        let findings = rng.below(4);
        self.lend_lists(lengths, findings, ANSWER_WORDS, rng);
        self.check_refused((number, place))?;
        self.report_refused((number, place), lengths, rng)?;
        let n = document.node_count();
        self.refused_texts((number, place), n, rng)?;
        self.tallies(&[], n as u64, rng)?;
        self.any_mark(rng)
    }

    fn accepted(
        &mut self,
        document: &Document,
        lengths: (usize, usize),
        rng: &mut Rng,
    ) -> Result<(), String> {
        let expected = self.reported(document)?;
        self.lend_lists(lengths, expected.texts.len(), ANSWER_WORDS, rng);
        let (seen, opens) = lengths;
        match working_list_refusal(document.node_count(), seen, opens) {
            Some((number, place)) => {
                self.check_refused((number.into(), place))?;
                self.report_refused((number.into(), place), lengths, rng)?;
            }
            None => {
                self.check(&expected)?;
                self.report_checked(&expected, lengths, rng)?;
            }
        }
        if rng.one_in(16) {
            self.limits(&expected, rng)?;
        }
        self.texts(&expected, rng)?;
        self.tallies(&expected.list, expected.nodes(), rng)?;
        self.any_mark(rng)
    }

    /// The check through the binding, with lists of its own.
    fn report(&mut self) -> Result<Report, harkoxin::Refusal> {
        let table = Table::new(self.slots.table.list());
        let tape = Tape::from_bytes(self.slots.tape.list());
        let source = self.slots.source.list();
        self.checker.check_bytes(&table, source, &tape)
    }

    /// The report of an accepted document: without code 35 its findings are the published ones, and those of code 35 the plain
    /// ones in their places. Where a sum of the published code leaves 32 bits, the texts are those that the documents have for
    /// the report's findings.
    fn reported<'a>(&mut self, document: &'a Document) -> Result<Expected<'a>, String> {
        let report = self.report().map_err(|refusal| refusal.to_string())?;
        self.counts.reached.answer(Function::Checker, 0);
        let (list, reader) = (words_of(&report), Reader::new(document));
        let plain = requests(&list).map(|request| reader.text(request));
        let plain: Option<Vec<String>> = plain.collect();
        let texts = plain.ok_or("a finding has no text")?;
        let published = try_validate(document)?;
        match &published {
            Validated::Findings(found) => same_findings(&report, found)?,
            Validated::Overflowed => self.counts.past_32_bits += 1,
        }
        same_unreadable(document, &list, published != Validated::Overflowed)?;
        for (finding, text) in report.findings().zip(&texts) {
            let code = finding.code();
            agree("a text", finding.message(), text)?;
            agree("a code", code.as_str(), code_name(code.index() as u32))?;
        }
        same_nodes(document, &list)?;
        same_positions(&report, &document.source)?;
        let verses = verses_visited(document);
        same_counts(&report, &list, verses)?;
        same_mark(&report, &list, verses)?;
        self.counts.paired.add(&same_account(document, &list)?);
        self.counts.accepted(document.node_count(), &list);
        Ok(Expected {
            document,
            reader,
            list,
            texts,
            verses,
        })
    }

    /// The lists of a check by the seed: long enough for so many findings and for an answer of so many words, or not, and
    /// filled with anything.
    fn lend_lists(
        &mut self,
        (seen, opens): (usize, usize),
        findings: usize,
        answer: usize,
        rng: &mut Rng,
    ) {
        let enough = findings * FINDING_WORDS;
        let room = match rng.below(10) {
            0 => 0,
            1 => enough.saturating_sub(1),
            2 => rng.below(enough + 1),
            3 => enough,
            4 => enough + rng.below(FINDING_WORDS),
            _ => enough + rng.below(40),
        };
        self.slots.seen.fill(seen, rng);
        self.slots.opens.fill(opens, rng);
        self.slots.list.fill(room, rng);
        self.slots.fill_out(answer, rng);
        let words = room + self.slots.out.len();
        self.counts
            .lent(&[4 * seen, size_of::<OpenStart>() * opens, 8 * words]);
    }

    fn check_refused(&mut self, (number, place): (u64, u64)) -> Result<(), String> {
        self.slots.check();
        self.counts.reached.answer(Function::Check, number);
        self.expect_lists(0, &[], &refused_words(number, place))
    }

    fn check(&mut self, expected: &Expected<'_>) -> Result<(), String> {
        self.slots.check();
        let (written, answer) = self.expected_answer(expected);
        let is_cut = answer[0] == CUT;
        self.counts.checked(is_cut, written as u64);
        self.counts.reached.answer(Function::Check, 0);
        let list = &expected.list[..written * FINDING_WORDS];
        self.expect_lists(expected.document.node_count(), list, &answer)
    }

    /// How many findings the lent list can hold, and the answer of a check.
    fn expected_answer(&self, expected: &Expected<'_>) -> (usize, [u64; ANSWER_WORDS]) {
        let total = expected.texts.len();
        let written = total.min(self.slots.list.len() / FINDING_WORDS);
        let verdict = if written < total { CUT } else { CHECKED };
        let [errors, warnings, infos] = severities(&expected.list);
        let answer = [
            verdict,
            0,
            0,
            total as u64,
            written as u64,
            expected.verses,
            errors,
            warnings,
            infos,
        ];
        (written, answer)
    }

    /// The lists after a check: so many entries of the working lists are zero, these words and the answer are written.
    fn expect_lists(&self, n: usize, words: &[u64], answer: &[u64]) -> Result<(), String> {
        self.slots.seen.expect("the chapters seen", &vec![0; n])?;
        let cleared = vec![OpenStart::default(); n];
        self.slots.opens.expect("the open starts", &cleared)?;
        self.slots.list.expect("the findings list", words)?;
        self.slots.expect_out("the answer", answer)
    }
}
