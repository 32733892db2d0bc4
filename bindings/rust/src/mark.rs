//! The mark of a document.

use std::fmt;

use crate::raw;
use crate::refusal::Refusal;

/// A mark out of one hundred, in hundredths.
///
/// It is shown with two decimals.
///
/// ```
/// let mark = harkoxin::mark(2, 1, 3)?;
/// assert_eq!((mark.loss, mark.mark), (1_916, 8_084));
/// assert_eq!(mark.to_string(), "80.84");
/// # Ok::<(), harkoxin::Refusal>(())
/// ```
#[derive(Clone, Copy, PartialEq, Eq, Hash, Debug)]
pub struct Mark {
    /// What errors and warnings take off, rounded down: `(250 * errors + 75 * warnings) * 10 / verses`. It can be over 10,000.
    pub loss: u64,
    /// 10,000 less the loss, or 0 where the loss is larger.
    pub mark: u64,
}

impl fmt::Display for Mark {
    fn fmt(&self, f: &mut fmt::Formatter<'_>) -> fmt::Result {
        f.pad(&format!("{}.{:02}", self.mark / 100, self.mark % 100))
    }
}

/// The mark of a document that has so many errors, warnings and verses.
///
/// [`Report::mark`](crate::Report::mark) takes the counts of a report. One error more never raises the mark.
///
/// ```
/// use harkoxin::{Refusal, mark};
///
/// assert_eq!(mark(0, 1, 1)?.mark, 9_250);
/// assert_eq!(mark(5, 0, 1)?.mark, 0);
/// assert_eq!(mark(0, 0, 0), Err(Refusal { number: 15, place: 0 }));
/// # Ok::<(), Refusal>(())
/// ```
///
/// # Errors
///
/// Number 14 where one of the counts is over 1,000,000, else number 15 where there are no verses; place 0.
pub fn mark(errors: u64, warnings: u64, verses: u64) -> Result<Mark, Refusal> {
    let mut out = [0; raw::MARK_WORDS];
    raw::mark(errors, warnings, verses, &mut out);
    match out {
        [raw::DONE, _, _, loss, mark] => Ok(Mark { loss, mark }),
        [_, number, place, ..] => Err(Refusal { number, place }),
    }
}
