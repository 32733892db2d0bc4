//! Marks from counts and of reports, and the numbers that turn them back.

use harkoxin::{Checker, Mark, Refusal, mark};

use crate::common::{Document, Numbers, example_names};

/// The most that a count may be.
const MOST: u64 = 1_000_000;

const TOO_MANY: Result<Mark, Refusal> = Err(Refusal {
    number: 14,
    place: 0,
});

const NO_VERSES: Result<Mark, Refusal> = Err(Refusal {
    number: 15,
    place: 0,
});

#[test]
fn the_listing_has_its_mark() {
    let report = Document::listing().check().unwrap();
    let expected = Mark {
        loss: 750,
        mark: 9_250,
    };
    assert_eq!(report.mark(), Ok(expected));
    assert_eq!(mark(0, 1, 1), Ok(expected));
}

#[test]
fn a_loss_is_rounded_down() {
    for (errors, warnings, verses, loss) in [
        (0, 0, 1, 0),
        (0, 1, 12, 62),
        (0, 1, 19, 39),
        (0, 1, 20, 37),
        (1, 1, 67, 48),
        (2, 0, 33, 151),
        (2, 0, 73, 68),
        (0, 1, 750, 1),
        (0, 1, 751, 0),
        (0, 1, MOST, 0),
        (1_999, 3, 500, 9_999),
        (3_999, 0, 1_000, 9_997),
    ] {
        let expected = Mark {
            loss,
            mark: 10_000 - loss,
        };
        assert_eq!(mark(errors, warnings, verses), Ok(expected));
    }
}

#[test]
fn no_mark_is_below_0() {
    for (errors, warnings, verses, loss) in [
        (4, 0, 1, 10_000),
        (2_000, 1, 500, 10_001),
        (5, 0, 1, 12_500),
        (MOST, MOST, MOST, 3_250),
        (MOST, 0, 250_000, 10_000),
        (MOST, MOST, 1, 3_250_000_000),
    ] {
        let expected = Mark {
            loss,
            mark: 10_000u64.saturating_sub(loss),
        };
        assert_eq!(mark(errors, warnings, verses), Ok(expected));
    }
}

#[test]
fn each_count_has_its_limit() {
    assert!(mark(MOST, 0, 1).is_ok());
    assert!(mark(0, MOST, 1).is_ok());
    assert!(mark(0, 0, MOST).is_ok());
    assert!(mark(MOST, MOST, MOST).is_ok());
    for over in [MOST + 1, u64::from(u32::MAX), 1 << 32, u64::MAX] {
        assert_eq!(mark(over, 0, 1), TOO_MANY);
        assert_eq!(mark(0, over, 1), TOO_MANY);
        assert_eq!(mark(0, 0, over), TOO_MANY);
        assert_eq!(mark(over, over, over), TOO_MANY);
    }
    // Products that come back to small numbers in 64 bits.
    for over in [u64::MAX / 2_500 + 1, u64::MAX / 750 + 1, 1 << 62] {
        assert_eq!(mark(over, 0, 1), TOO_MANY);
        assert_eq!(mark(0, over, 1), TOO_MANY);
    }
}

#[test]
fn without_verses_there_is_no_mark() {
    for errors in [0, 1, MOST] {
        for warnings in [0, 1, MOST] {
            assert_eq!(mark(errors, warnings, 0), NO_VERSES);
        }
    }
    assert_eq!(mark(MOST + 1, 0, 0), TOO_MANY);
    assert_eq!(mark(0, MOST + 1, 0), TOO_MANY);
    assert_eq!(mark(u64::MAX, u64::MAX, 0), TOO_MANY);
}

/// Counts on a grid: all small ones, and some up to the limit.
fn grid() -> impl Iterator<Item = u64> + Clone {
    (0..40).chain([99, 100, 4_999, 65_536, 249_999, 999_998, MOST - 1, MOST])
}

#[test]
fn one_error_more_never_raises_the_mark() {
    let mut lowered = 0;
    for verses in grid().skip(1) {
        for warnings in grid() {
            for errors in grid().filter(|&errors| errors < MOST) {
                let before = mark(errors, warnings, verses).unwrap();
                let after = mark(errors + 1, warnings, verses).unwrap();
                assert!(after.mark <= before.mark && before.mark <= 10_000);
                assert!(before.loss <= after.loss);
                lowered += u64::from(after.mark < before.mark);
            }
        }
    }
    assert!(lowered > 10_000, "{lowered}");
}

#[test]
fn a_loss_times_the_verses_is_just_below_the_penalty() {
    let numbers = &mut Numbers::from_seed(5);
    let mut number = || numbers.below(MOST as usize + 1) as u64;
    for _ in 0..20_000 {
        let (errors, warnings, verses) = (number(), number(), 1 + number() % MOST);
        let Mark { loss, mark } = mark(errors, warnings, verses).unwrap();
        let penalty = 2_500 * errors + 750 * warnings;
        assert!(loss * verses <= penalty && penalty < (loss + 1) * verses);
        assert_eq!(mark, 10_000 - loss.min(10_000));
    }
}

#[test]
fn a_report_is_marked_by_the_counts_of_its_document() {
    let (mut marked, mut turned_back) = (0, 0);
    for name in example_names() {
        let document = Document::example(&name);
        let Ok(whole) = document.check() else {
            continue;
        };
        let counts = (whole.errors(), whole.warnings(), whole.verses());
        assert_eq!(whole.mark(), mark(counts.0, counts.1, counts.2), "{name}");
        let mut checker = Checker::new().max_findings(1);
        let cut = checker.check_bytes(&document.table(), &document.source, &document.tape());
        assert_eq!(cut.unwrap().mark(), whole.mark(), "{name}");
        match whole.mark() {
            Ok(_) => marked += 1,
            Err(_) => turned_back += 1,
        }
    }
    assert!(marked >= 5 && turned_back >= 3, "{marked} {turned_back}");
}

#[test]
fn marks_are_shown_with_two_decimals() {
    for (hundredths, shown) in [
        (0, "0.00"),
        (5, "0.05"),
        (20, "0.20"),
        (9_250, "92.50"),
        (9_999, "99.99"),
        (10_000, "100.00"),
    ] {
        let mark = Mark {
            loss: 10_000 - hundredths,
            mark: hundredths,
        };
        assert_eq!(mark.to_string(), shown);
        assert_eq!(format!("{mark:>8}"), format!("{shown:>8}"));
    }
}
