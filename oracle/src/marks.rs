//! Document 02's mark with numbers 14 and 15, plainly, and what mark-exercise prints.

use crate::document::Document;
use crate::listing::{of_severity, printed, refused_lines};
use crate::refusals::verses_visited;

/// "over 1,000,000"
pub const MOST_COUNTED: u64 = 1_000_000;

/// In hundredths of a mark.
#[derive(Clone, Copy, Debug, PartialEq, Eq)]
pub struct Mark {
    pub loss: u64,
    pub mark: u64,
}

/// The mark of a document with these counts, or the number that turns it back with its place.
pub fn mark(errors: u64, warnings: u64, verses: u64) -> Result<Mark, (u64, u64)> {
    // "14 when any of the three counts is over 1,000,000, place 0"
    if errors > MOST_COUNTED || warnings > MOST_COUNTED || verses > MOST_COUNTED {
        return Err((14, 0));
    }

    // "then 15 when verses is 0, place 0"
    if verses == 0 {
        return Err((15, 0));
    }

    // "loss = (250 × errors + 75 × warnings) × 10 / verses, in hundredths of a mark, rounded down"
    let loss = (250 * errors + 75 * warnings) * 10 / verses;

    // "The mark is 10,000 less the loss, never below 0."
    let mark = 10_000_u64.saturating_sub(loss);

    Ok(Mark { loss, mark })
}

/// What mark-exercise prints for these three files.
pub fn lines(document: &Document) -> String {
    printed(document, |list| {
        let count = |severity| of_severity(list, severity) as u64;
        match mark(count(0), count(1), verses_visited(document)) {
            Ok(Mark { loss, mark }) => format!("loss={loss}\nmark={mark}\n"),
            Err((number, place)) => refused_lines(number, place),
        }
    })
}

#[cfg(test)]
mod tests {
    use super::*;
    use crate::examples::{examples, million_errors};
    use crate::samples;

    #[test]
    fn the_loss_is_the_largest_that_the_penalty_reaches() {
        for verses in 1..90 {
            for errors in 0..30 {
                for warnings in 0..30 {
                    let Mark { loss, mark } = mark(errors, warnings, verses).unwrap();
                    let penalty = errors * 2_500 + warnings * 750;
                    let reached = (0..=penalty).take_while(|loss| loss * verses <= penalty);
                    assert_eq!(loss, reached.last().unwrap());
                    assert_eq!(mark + loss.min(10_000), 10_000);
                }
            }
        }
    }

    #[test]
    fn numbers_are_given_in_their_order() {
        for over in [1_000_001, u64::MAX] {
            for counts in [[over, 0, 0], [0, over, 0], [0, 0, over], [over; 3]] {
                let [errors, warnings, verses] = counts;
                assert_eq!(mark(errors, warnings, verses), Err((14, 0)));
            }
        }
        assert_eq!(mark(0, 0, 0), Err((15, 0)));
        assert_eq!(mark(1_000_000, 1_000_000, 0), Err((15, 0)));
        let most = mark(1_000_000, 1_000_000, 1_000_000).unwrap();
        assert_eq!((most.loss, most.mark), (3_250, 6_750));
    }

    #[test]
    fn the_listing_has_its_mark() {
        assert_eq!(lines(&samples::listing()), "loss=750\nmark=9250\n");
    }

    #[test]
    fn each_number_is_printed_of_an_example() {
        for (name, document) in examples() {
            let number = name.strip_prefix("refused-");
            let number: Option<u64> = number.map(|number| number.parse().unwrap());
            // The numbers behind them are read-exercise's.
            if let Some(number @ ..=15) = number {
                let refused = format!("verdict=refused\nrefusal={number}\nplace=");
                assert!(lines(&document).starts_with(&refused), "{name}");
            }
        }
    }

    #[test]
    fn a_million_errors_are_marked() {
        assert_eq!(
            lines(&million_errors("\\v 1 ")),
            "loss=2500000000\nmark=0\n"
        );
    }
}
