//! Reports of checked documents.

use harkoxin::{Checker, Code, Finding, Report, Severity, Table, Tape, check};

use crate::common::{Document, NODES, SOURCE, TABLE, example_names};

fn listing() -> Report {
    check(&Table::from(TABLE), SOURCE, &Tape::from_nodes(&NODES)).unwrap()
}

fn each_code() -> Report {
    Document::example("each-code").check().unwrap()
}

#[test]
fn the_listing_has_one_finding() {
    let report = listing();
    assert_eq!((report.total(), report.verses()), (1, 1));
    assert_eq!(
        (report.errors(), report.warnings(), report.infos()),
        (0, 1, 0)
    );
    assert!(!report.is_cut());
    let finding = report.get(0).unwrap();
    assert_eq!(finding.severity(), Severity::Warning);
    assert_eq!(finding.code(), Code::InvalidVerseSequence);
    assert_eq!(&SOURCE[finding.span()], "\\v 2 ");
    assert_eq!((finding.node(), finding.form()), (6, 0));
    assert_eq!(finding.numbers(), [1, 0]);
    assert_eq!(finding.message(), "expected verse 1 but found 2");
    assert_eq!(report.get(1), None);
}

#[test]
fn findings_and_refusals_are_shown() {
    let report = listing();
    let shown: Vec<String> = report.findings().map(|f| f.to_string()).collect();
    let line = "warning[InvalidVerseSequence] 16..21: expected verse 1 but found 2";
    assert_eq!(shown, [line]);
    assert_eq!(
        format!("{:>8}|{:<8}|", Severity::Info, Severity::Error),
        "    info|error   |"
    );
    assert_eq!(format!("{:.4}", Code::DuplicateId), "Dupl");
}

#[test]
fn a_clean_document_has_no_findings() {
    let report = Document::example("clean").check().unwrap();
    assert_eq!((report.total(), report.verses()), (0, 2));
    assert_eq!(report.findings().len(), 0);
    assert_eq!(report.findings().next(), None);
    assert_eq!(report.tally(), &[0; Code::COUNT]);
    assert!(!report.is_cut());
}

#[test]
fn findings_are_taken_from_both_ends() {
    let report = each_code();
    let all: Vec<Finding<'_>> = report.findings().collect();
    assert_eq!(all.len(), 30);
    let mut back: Vec<Finding<'_>> = report.findings().rev().collect();
    back.reverse();
    assert_eq!(back, all);
    assert_eq!((&report).into_iter().collect::<Vec<_>>(), all);

    let mut findings = report.findings();
    assert_eq!(findings.nth(3), Some(all[3]));
    assert_eq!(findings.next_back(), Some(all[29]));
    assert_eq!(findings.len(), 25);
    assert_eq!(findings.nth(25), None);
    assert_eq!(findings.next_back(), None);
    for (place, finding) in all.iter().enumerate() {
        assert_eq!(report.get(place), Some(*finding));
    }
}

#[test]
fn counts_are_those_of_the_findings() {
    let report = each_code();
    let of = |severity| {
        report
            .findings()
            .filter(|f| f.severity() == severity)
            .count() as u64
    };
    assert_eq!(report.errors(), of(Severity::Error));
    assert_eq!(report.warnings(), of(Severity::Warning));
    assert_eq!(report.infos(), of(Severity::Info));
    for code in Code::ALL {
        let count = report.findings().filter(|f| f.code() == code).count() as u64;
        assert_eq!(report.tally()[code.index()], count, "{code}");
    }
    assert_eq!(report.tally()[Code::InvalidAttributes.index()], 4);
}

#[test]
fn spans_lie_between_characters() {
    for name in ["greek", "arabic"] {
        let document = Document::example(name);
        let source = std::str::from_utf8(&document.source).unwrap();
        assert!(!source.is_ascii());
        let report = check(&document.table(), source, &document.tape()).unwrap();
        assert!(report.total() >= 3);
        for finding in &report {
            assert!(source.get(finding.span()).is_some(), "{name}: {finding}");
        }
    }
}

#[test]
fn codes_have_their_numbers() {
    assert_eq!(Code::COUNT, 36);
    assert_eq!(Code::UnknownMarker.index(), 0);
    assert_eq!(Code::MissingIdMarker.index(), 4);
    assert_eq!(Code::InvalidAttributes.index(), 17);
    assert_eq!(Code::DefaultAttributeNotDefined.index(), 32);
    assert_eq!(Code::MissingSpaceBeforeNumber.index(), 34);
    assert_eq!(Code::UnreadableVerseNumber.index(), 35);
    assert_eq!(Code::from_index(36), None);
    for (index, code) in Code::ALL.into_iter().enumerate() {
        assert_eq!(code.index(), index);
        assert_eq!(Code::from_index(index), Some(code));
    }
    assert_eq!(Severity::from_index(2), Some(Severity::Info));
    assert_eq!(Severity::from_index(3), None);
}

#[test]
fn a_checker_gives_what_a_new_one_gives() {
    let mut checker = Checker::new();
    let names = example_names();
    for name in names.iter().chain(names.iter().rev()) {
        let document = Document::example(name);
        let kept = checker.check_bytes(&document.table(), &document.source, &document.tape());
        assert_eq!(kept, document.check(), "{name}");
    }
}

#[test]
fn reports_and_checkers_pass_between_threads() {
    let each_code = each_code();
    let documents: Vec<_> = (0..4).map(|_| Document::example("each-code")).collect();
    std::thread::scope(|scope| {
        for document in &documents {
            scope.spawn(|| assert_eq!(document.check().unwrap(), each_code));
        }
    });
}
