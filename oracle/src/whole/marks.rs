//! Marks.

use harkoxin::raw::{DONE, MARK_WORDS, REFUSED};
use harkoxin::{Report, mark};

use super::Comparison;
use super::findings::severities;
use crate::differ::agree;
use crate::marks::{self, Mark};
use crate::reached::Function;
use crate::requests;
use crate::rng::Rng;

/// A mark of the binding in the form of the plain one.
fn plain(mark: Result<harkoxin::Mark, harkoxin::Refusal>) -> Result<Mark, (u64, u64)> {
    let turned_back = |refusal: harkoxin::Refusal| (refusal.number, refusal.place);
    let marked = |harkoxin::Mark { loss, mark }| Mark { loss, mark };
    mark.map(marked).map_err(turned_back)
}

/// The mark of a report of a document that has these findings and so many verses.
pub fn same_mark(report: &Report, list: &[u64], verses: u64) -> Result<(), String> {
    let [errors, warnings, _] = severities(list);
    let expected = marks::mark(errors, warnings, verses);
    agree("a report's mark", plain(report.mark()), expected)
}

impl Comparison {
    /// The mark of these counts, through the binding and over a lent list.
    pub fn mark(&mut self, counts: [u64; 3], rng: &mut Rng) -> Result<(), String> {
        let [errors, warnings, verses] = counts;
        let expected = marks::mark(errors, warnings, verses);
        let answer: [u64; MARK_WORDS] = match expected {
            Ok(Mark { loss, mark }) => [DONE, 0, 0, loss, mark],
            Err((number, place)) => [REFUSED, number, place, 0, 0],
        };
        let with_counts = |why| format!("errors, warnings and verses {counts:?}: {why}");
        let marked = plain(mark(errors, warnings, verses));
        agree("a mark", marked, expected).map_err(with_counts)?;
        self.slots.fill_out(MARK_WORDS, rng);
        self.slots.mark(errors, warnings, verses);
        let out = self.slots.expect_out("the answer of a mark", &answer);
        out.map_err(with_counts)?;
        self.counts.lent(&[8 * self.slots.out.len()]);
        self.counts.reached.answer(Function::Mark, answer[1]);
        Ok(())
    }

    /// The mark of counts that no document need have.
    pub(super) fn any_mark(&mut self, rng: &mut Rng) -> Result<(), String> {
        self.mark(requests::counts(rng), rng)
    }
}
