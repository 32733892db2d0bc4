//! The repository's examples, whose listings come from the published `validate` and a plain implementation of the rest.

use std::fmt::Write;

use harkoxin::{Finding, Mark, Position, Refusal, Report};

use crate::common::{Document, example_listing, example_mark, example_names};

const LARGEST_FILE: usize = 65_536;
const MOST_FINDINGS: usize = 1_024;
const LONGEST_MESSAGE: usize = 65_536;

fn finding_lines(out: &mut String, finding: Finding<'_>, position: Position) {
    let Position { line, column, .. } = position;
    let message = match finding.message() {
        text if text.len() <= LONGEST_MESSAGE => text,
        _ => "",
    };
    let (severity, code) = (finding.severity(), finding.code());
    writeln!(
        out,
        "severity={severity}\ncode={code}\nline={line}\ncolumn={column}\nmessage={message}"
    )
    .unwrap();
}

fn report_lines(source: &[u8], report: &Report) -> String {
    let mut out = format!(
        "verdict=checked\nerrors={}\nwarnings={}\ninfos={}\nfindings={}\n",
        report.errors(),
        report.warnings(),
        report.infos(),
        report.total()
    );
    let findings = report.findings().zip(report.positions(source));
    for (finding, position) in findings.take(MOST_FINDINGS) {
        finding_lines(&mut out, finding, position);
    }
    out
}

fn mark_lines(report: &Report) -> String {
    match report.mark() {
        Ok(Mark { loss, mark }) => format!("loss={loss}\nmark={mark}\n"),
        Err(refusal) => refusal_lines(refusal),
    }
}

fn refusal_lines(Refusal { number, place }: Refusal) -> String {
    format!("verdict=refused\nrefusal={number}\nplace={place}\n")
}

/// What a program prints for a document, made with the binding, where these are its lines for a checked one.
fn printed(document: &Document, lines: impl FnOnce(&Report) -> String) -> String {
    let files = [&document.table, &document.source, &document.tape];
    if files.iter().any(|file| file.len() > LARGEST_FILE) {
        return "verdict=toolarge\n".to_string();
    }
    match document.check() {
        Ok(report) => lines(&report),
        Err(refusal) => refusal_lines(refusal),
    }
}

#[test]
fn every_example_has_its_listing() {
    for name in example_names() {
        let document = Document::example(&name);
        let listing = printed(&document, |report| report_lines(&document.source, report));
        assert_eq!(listing, example_listing(&name), "{name}");
    }
}

#[test]
fn every_example_has_its_mark() {
    for name in example_names() {
        let lines = printed(&Document::example(&name), mark_lines);
        assert_eq!(lines, example_mark(&name), "{name}");
    }
}

#[test]
fn what_the_listing_leaves_out_is_there() {
    let long = Document::example("long-message").check().unwrap();
    let code = "x".repeat(65_530);
    let text = format!("\"{code}\" is not a valid USFM book code");
    assert_eq!(long.get(0).unwrap().message(), text);
    assert_eq!(Document::example("too-large").check().unwrap().total(), 1);
    let many = Document::example("many").check().unwrap();
    assert_eq!(many.findings().len(), 1_033);
}
