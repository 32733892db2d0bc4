//! More findings than nodes, and reports that a limit cuts.

use harkoxin::{Checker, Code, Node, NodeKind, Refusal, Report};

use crate::common::Document;

const TABLE: &str =
    "name=w\ncategory=character\nrole=content\nname=v\ncategory=verse\nrole=content\n";

/// A `\w` with so many attribute nodes, each over all of the source behind it.
fn attributes(source: &str, count: usize) -> Document {
    let len = source.len() as u32 - 2;
    let close = count as u32 + 2;
    let mut nodes = vec![
        Node::new(NodeKind::Root, 0, 0, 0, close + 1),
        Node::new(NodeKind::MarkerOpen, 0, 0, 2, close),
    ];
    nodes.extend(vec![Node::new(NodeKind::Attribute, 0, 2, len, 0); count]);
    nodes.push(Node::new(NodeKind::BlockEnd, 0, 2, 0, 0));
    Document::of(TABLE, source, &nodes)
}

fn check_with(checker: Checker, document: &Document) -> Report {
    let mut checker = checker;
    checker
        .check_bytes(&document.table(), &document.source, &document.tape())
        .unwrap()
}

#[test]
fn more_findings_than_nodes_are_all_held() {
    let nodes = [
        Node::new(NodeKind::Root, 0, 0, 0, 2),
        Node::new(NodeKind::Verse, 1, 0, 5, 0),
    ];
    let report = Document::of(TABLE, "\\v 02", &nodes).check().unwrap();
    let codes: Vec<Code> = report.findings().map(|finding| finding.code()).collect();
    let expected = [
        Code::VerseOutsideParagraph,
        Code::InvalidVerseSequence,
        Code::LeadingZeros,
        Code::MissingIdMarker,
        Code::MissingChapterMarker,
    ];
    assert_eq!(codes, expected);
    assert!(!report.is_cut());
}

#[test]
fn the_most_findings_without_overlap_are_all_held() {
    let source = format!("\\w{}", "= ".repeat(524_287));
    assert_eq!(source.len(), 1_048_576);
    let report = attributes(&source, 1).check().unwrap();
    assert_eq!(report.total(), 524_287);
    assert_eq!(report.findings().len(), 524_287);
    assert!(!report.is_cut());
    let last = report.findings().next_back().unwrap();
    assert_eq!(last.message(), "attribute value must be quoted");
    assert_eq!(
        report.tally()[Code::UnquotedAttributeValue.index()],
        524_287
    );
}

#[test]
fn more_findings_than_the_limit_cut_the_report() {
    let document = attributes("\\w= = = = =", 4);
    let whole = document.check().unwrap();
    assert_eq!(whole.total(), 20);
    for held in [0, 1, 6, 7, 19] {
        let cut = check_with(Checker::new().max_findings(held), &document);
        assert!(cut.is_cut());
        assert_eq!((cut.total(), cut.errors()), (20, 20));
        assert!(cut.findings().eq(whole.findings().take(held)));
        assert_eq!(cut.tally().iter().sum::<u64>(), held as u64);
    }
    for held in [20, 21, usize::MAX] {
        let same = check_with(Checker::new().max_findings(held), &document);
        assert_eq!(same, whole);
    }
}

#[test]
fn overlapping_spans_pass_no_limit() {
    // 2,049 findings for each of 520 nodes.
    let source = format!("\\w{}=", "= ".repeat(2_048));
    let document = attributes(&source, 520);
    let raised = Checker::new().max_findings(usize::MAX);
    let report = check_with(raised, &document);
    assert_eq!(report.total(), 520 * 2_049);
    assert_eq!(report.findings().len(), 1_048_576);
    assert!(report.is_cut());
    let refusal = Refusal {
        number: 14,
        place: 0,
    };
    assert_eq!(report.mark(), Err(refusal));
}

#[test]
fn longer_texts_than_the_limit_cut_the_report() {
    let document = attributes("\\w= = = = =", 4);
    let whole = document.check().unwrap();
    let text = "attribute value must be quoted".len();
    for (bytes, held) in [(0, 0), (text - 1, 0), (text, 1), (20 * text - 1, 19)] {
        let cut = check_with(Checker::new().max_text(bytes), &document);
        assert!(cut.is_cut());
        assert_eq!(cut.total(), 20);
        assert!(cut.findings().eq(whole.findings().take(held)));
    }
    assert_eq!(
        check_with(Checker::new().max_text(20 * text), &document),
        whole
    );
}

#[test]
fn long_texts_are_all_held() {
    // Each verse shows the same label of 5,000 bytes, so that the texts are far longer than the first room for them.
    let label = "9".repeat(4_999) + "0";
    let source = format!("\\v {label}");
    let verse = Node::new(NodeKind::Verse, 1, 0, source.len() as u32, 0);
    let mut nodes = vec![verse; 301];
    nodes[0] = Node::new(NodeKind::Root, 0, 0, 0, 301);
    nodes[7] = Node::new(NodeKind::Verse, 1, 0, 3, 0);
    let zeros = source.replace("\\v 9", "\\v 0");
    let report = Document::of(TABLE, &zeros, &nodes).check().unwrap();
    let shown = zeros.replace("\\v ", "verse number `") + "` has leading zeros";
    let zeros = report.findings().filter(|f| f.code() == Code::LeadingZeros);
    let texts: Vec<&str> = zeros.map(|finding| finding.message()).collect();
    assert_eq!(texts, vec![shown.as_str(); 299]);
    assert_eq!(report.tally()[Code::MissingVerseNumber.index()], 1);
    assert!(!report.is_cut());
}
