//! What the examples of the bindings print, by the published code, document 02's findings and the plain refusals.

use std::fmt::Write;

use oracle::coverage::code_name;
use oracle::document::Document;
use oracle::examples::examples;
use oracle::listing::of_severity;
use oracle::marks::mark;
use oracle::reading;
use oracle::refusals::{refusal, verses_visited};
use oracle::unreadable::owed_findings;

const FOLDERS: [&str; 9] = [
    "listing",
    "each-code",
    "greek",
    "arabic",
    "unreadable-verses",
    "clean",
    "refused-3",
    "refused-7",
    "refused-15",
];

/// The folders whose sources the examples read as texts, under the table of USFM 3.1.
const TEXTS: [&str; 7] = [
    "own-text",
    "listing",
    "greek",
    "unreadable-verses",
    "refused-16",
    "refused-17",
    "refused-3",
];
const TABLE: &[u8] = include_bytes!("../../tables/usfm-3.1.txt");

const SEVERITIES: [&str; 3] = ["error", "warning", "info"];

fn refused(out: &mut String, name: &str, number: u32, place: u64) {
    writeln!(out, "{name}: refused by number {number}, place {place}").unwrap();
}

fn printed(out: &mut String, name: &str, document: &Document) {
    let nodes = document.node_count();
    if let Some((number, place)) = refusal(document, nodes, nodes) {
        refused(out, name, number, place);
        return;
    }
    let findings = owed_findings(document);
    let count = |severity| of_severity(&findings, severity) as u64;
    let (errors, warnings, infos) = (count(0), count(1), count(2));
    let verses = verses_visited(document);
    let mark = match mark(errors, warnings, verses) {
        Ok(marked) => format!("mark {:.2}", marked.mark as f64 / 100.0),
        Err((number, _)) => format!("no mark by number {number}"),
    };
    writeln!(
        out,
        "{name}: errors {errors}, warnings {warnings}, infos {infos}, verses {verses}, {mark}"
    )
    .unwrap();
    for found in &findings {
        let severity = SEVERITIES[found.severity as usize];
        let (code, end) = (code_name(found.code), found.start + found.len);
        writeln!(
            out,
            "{severity}[{code}] {}..{end}: {}",
            found.start, found.message
        )
        .unwrap();
    }
}

fn example(name: &str) -> Document {
    let mut all = examples().into_iter();
    let (_, document) = all.find(|(its, _)| *its == name).expect("a folder");
    document
}

#[test]
fn the_stored_output_of_texts_is_the_owed_one() {
    let mut out = String::new();
    for name in TEXTS {
        let path = format!("{name}/source.usfm");
        let mut document = Document {
            table: TABLE.to_vec(),
            ..example(name)
        };
        match reading::read(TABLE, &document.source, usize::MAX) {
            Ok(nodes) => {
                document.set_nodes(&nodes);
                printed(&mut out, &path, &document);
            }
            Err((number, place)) => refused(&mut out, &path, number, place),
        }
    }
    let stored = include_str!("../../bindings/c/expected-texts");
    assert_eq!(out, stored);
}

#[test]
fn the_stored_output_is_the_owed_one() {
    let mut out = String::new();
    for name in FOLDERS {
        printed(&mut out, name, &example(name));
    }
    let stored = include_str!("../../bindings/c/expected");
    assert_eq!(out, stored);
}
