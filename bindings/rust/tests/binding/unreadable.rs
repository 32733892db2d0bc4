//! Verses whose numbers nobody can read.

use harkoxin::raw::{self, DONE, MessageRequest, REFUSED};
use harkoxin::{Code, Node, NodeKind, Report, Severity, Table, check_text};

use crate::common::{Document, TABLE};

/// A report on verses of these labels in a paragraph.
fn verses(labels: &[&str]) -> Report {
    let mut text = "\\id GEN\n\\c 1\n\\p".to_string();
    for label in labels {
        text += &format!("\\v {label}\n");
    }
    check_text(&Table::from(TABLE), &text).unwrap()
}

/// Form and text of each finding, all of which are warnings of this code.
fn forms(report: &Report) -> Vec<(usize, &str)> {
    let form = |finding: harkoxin::Finding<'_>| {
        assert_eq!(finding.code(), Code::UnreadableVerseNumber);
        assert_eq!(finding.severity(), Severity::Warning);
        assert_eq!(finding.numbers(), [0, 0]);
        finding.form()
    };
    let forms = report.findings().map(form);
    let texts = report.findings().map(|finding| finding.message());
    forms.zip(texts).collect()
}

#[test]
fn both_forms_show_the_whole_label() {
    let labels = ["abc", "1", "4294967296", "x-5", "4294967296-3a", "-3", "+5"];
    let report = verses(&labels);
    let expected = [
        (0, "verse label abc has no number"),
        (1, "verse label 4294967296 is too large"),
        (0, "verse label x-5 has no number"),
        (1, "verse label 4294967296-3a is too large"),
        (0, "verse label -3 has no number"),
        (0, "verse label +5 has no number"),
    ];
    assert_eq!(forms(&report), expected);
    assert_eq!((report.warnings(), report.verses()), (6, 7));
    assert_eq!(report.tally()[Code::UnreadableVerseNumber.index()], 6);
    assert_eq!(report.tally().len(), 36);
    let shown = "warning[UnreadableVerseNumber] 15..21: verse label abc has no number";
    assert_eq!(report.get(0).unwrap().to_string(), shown);
}

#[test]
fn an_end_that_isnt_read_lets_the_start_serve() {
    assert_eq!(
        forms(&verses(&["1-x", "2-", "3-4294967296", "4-+9", "5"])),
        []
    );
}

#[test]
fn a_start_that_isnt_read_leaves_the_expected_verse() {
    let report = verses(&["1", "x-7", "4294967298-7", "2"]);
    assert_eq!(report.total(), 2);
    assert_eq!(forms(&report).len(), 2);
}

#[test]
fn the_largest_number_is_read() {
    assert_eq!(forms(&verses(&["1-4294967294", "4294967295a"])), []);
    let report = verses(&["4294967296", "1"]);
    assert_eq!(forms(&report), [(1, "verse label 4294967296 is too large")]);
}

#[test]
fn the_findings_of_a_verse_have_their_order() {
    let source = "\\nd\\v04294967296";
    let table = "name=nd\ncategory=character\nrole=content\nname=v\ncategory=verse\nrole=content\n";
    let nodes = [
        Node::new(NodeKind::Root, 0, 0, 0, 4),
        Node::new(NodeKind::MarkerOpen, 0, 0, 3, 3),
        Node::new(NodeKind::Verse, 1, 3, 13, 0),
        Node::new(NodeKind::BlockEnd, 0, 16, 0, 0),
    ];
    let report = Document::of(table, source, &nodes).check().unwrap();
    let codes: Vec<usize> = report.findings().map(|f| f.code().index()).collect();
    assert_eq!(codes, [12, 20, 35, 34, 15, 4, 8]);
    let finding = report.get(2).unwrap();
    assert_eq!((finding.node(), finding.span()), (2, 3..16));
    assert_eq!(finding.message(), "verse label 04294967296 is too large");
}

#[test]
fn number_11_starts_above_code_35() {
    let counts_of = |code: u64| {
        let (mut counts, mut out) = ([9; Code::COUNT], [9; raw::TALLY_WORDS]);
        raw::tally(&[1, code, 0, 0, 0, 0, 0, 0], &mut counts, &mut out);
        (counts, out)
    };
    let (counts, out) = counts_of(35);
    assert_eq!(out, [DONE, 0, 0]);
    assert_eq!((counts[35], counts.iter().sum::<u64>()), (1, 1));
    for code in [36, 37, u64::MAX] {
        assert_eq!(counts_of(code), ([9; Code::COUNT], [REFUSED, 11, 0]));
    }
}

#[test]
fn number_12_knows_both_forms() {
    let document = Document::listing();
    let text_of = |form: u64, node: u64| {
        let request = MessageRequest {
            code: 35,
            form,
            node,
            // Neither number is looked at.
            first: u64::MAX,
            second: u64::MAX,
        };
        let (mut text, mut out) = ([b'#'; 40], [9; raw::MESSAGE_WORDS]);
        document.raw_message(request, &mut text, &mut out);
        let len = out[3] as usize;
        assert!(text[len..].iter().all(|&byte| byte == b'#'));
        (out, String::from_utf8(text[..len].to_vec()).unwrap())
    };
    let done = |text: &str| ([DONE, 0, 0, text.len() as u64], text.to_string());
    // A Chapter's label or a Verse's, whether it can be read or not.
    assert_eq!(text_of(0, 6), done("verse label 2 has no number"));
    assert_eq!(text_of(1, 6), done("verse label 2 is too large"));
    assert_eq!(text_of(0, 4), done("verse label 1 has no number"));
    for (form, node) in [(2, 6), (u64::MAX, 6), (0, 0), (0, 1), (1, 2), (1, 9)] {
        let refused = ([REFUSED, 12, 0, 0], String::new());
        assert_eq!(text_of(form, node), refused, "form {form}, node {node}");
    }
}
