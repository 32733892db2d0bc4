//! Each number that turns a document back, with its place.

use std::error::Error;

use harkoxin::{Node, NodeKind, Refusal, Table, Tape, check, check_bytes};

use crate::common::{Document, NODES, SOURCE, TABLE};

fn refused(document: &Document) -> (u64, u64) {
    let Refusal { number, place } = document.check().unwrap_err();
    (number, place)
}

/// The listing's document with one node changed.
fn with_node(place: usize, change: impl FnOnce(&mut Node)) -> Document {
    let mut nodes = NODES;
    change(&mut nodes[place]);
    Document::of(TABLE, SOURCE, &nodes)
}

#[test]
fn tables_that_break_the_layout() {
    let mut document = Document::listing();
    document.table.pop();
    assert_eq!(refused(&document), (1, 144));
    document.table = b"name=id\ncategory=verse\n".to_vec();
    assert_eq!(refused(&document), (1, 23));
    document.table = vec![0xFF];
    assert_eq!(refused(&document), (1, 0));
}

#[test]
fn sources_that_are_too_long_or_no_utf8() {
    let mut document = Document::listing();
    document.source.resize(1_048_577, b' ');
    assert_eq!(refused(&document), (2, 0));
    document.source.pop();
    assert!(document.check().is_ok());
    document.source[1_048_575] = 0xC3;
    assert_eq!(refused(&document), (3, 1_048_575));
}

#[test]
fn tapes_of_another_length() {
    let mut document = Document::listing();
    document.tape.pop();
    assert_eq!(refused(&document), (4, 0));
    document.tape.clear();
    assert_eq!(refused(&document), (4, 0));
    let text = Node::new(NodeKind::Text, 0, 0, 0, 0);
    let mut nodes = vec![text; 65_536];
    nodes[0] = Node::new(NodeKind::Root, 0, 0, 0, 65_536);
    assert_eq!(refused(&Document::of("", "", &nodes)), (4, 0));
    nodes.pop();
    nodes[0].link = 65_535;
    assert!(Document::of("", "", &nodes).check().is_ok());
}

#[test]
fn nodes_that_dont_fit() {
    let mut unknown_kind = Document::listing();
    unknown_kind.tape[16 * 7] = 9;
    assert_eq!(refused(&unknown_kind), (5, 7));
    let second_root = with_node(2, |node| node.kind = NodeKind::Root);
    assert_eq!(refused(&second_root), (5, 2));
    let outside = with_node(7, |node| node.len = 5);
    assert_eq!(refused(&outside), (6, 7));
    let past_32_bits = with_node(7, |node| node.start = u32::MAX);
    assert_eq!(refused(&past_32_bits), (6, 7));
    let early_close = with_node(5, |node| node.link = 7);
    assert_eq!(refused(&early_close), (7, 8));
    let root = with_node(0, |node| node.link = 3);
    assert_eq!(refused(&root), (7, 0));
    assert_eq!(refused(&Document::example("refused-8")), (8, 65));
    assert_eq!(refused(&Document::example("refused-9")), (9, 1));
}

#[test]
fn empty_parts() {
    let empty = Document::default();
    assert_eq!(refused(&empty), (4, 0));
    let root = [Node::new(NodeKind::Root, 0, 0, 0, 1)];
    let report = check(&Table::from(""), "", &Tape::from_nodes(&root)).unwrap();
    assert_eq!((report.total(), report.verses()), (0, 0));
}

#[test]
fn bytes_and_text_are_checked_alike() {
    let document = Document::listing();
    let (table, tape) = (document.table(), document.tape());
    let bytes = check_bytes(&table, &document.source, &tape);
    assert_eq!(bytes, check(&table, SOURCE, &tape));
    assert!(bytes.is_ok());
}

#[test]
fn each_number_has_its_explanation() {
    for (number, unit, words) in [
        (1, "table byte", "marker table"),
        (2, "place", "longer than 1,048,576 bytes"),
        (3, "source byte", "UTF-8"),
        (4, "place", "65,535 nodes"),
        (5, "node", "kind is over 8"),
        (6, "node", "span leaves the source"),
        (7, "node", "links"),
        (8, "node", "inside 64"),
        (9, "node", "longer than its table name"),
        (10, "nodes", "working list"),
        (11, "record", "findings list"),
        (12, "place", "no text"),
        (13, "bytes needed", "too short for the text"),
        (14, "place", "over 1,000,000"),
        (15, "place", "no verses"),
        (16, "source byte", "isn't in the table"),
        (17, "source byte", "without its open"),
        (18, "nodes needed", "too short for the nodes"),
    ] {
        let refusal = Refusal { number, place: 77 };
        assert!(refusal.explanation().contains(words), "{refusal}");
        let start = format!("refused by number {number} ({unit} 77): ");
        assert_eq!(refusal.to_string(), start + refusal.explanation());
    }
    for number in [0, 19, u64::MAX] {
        let refusal = Refusal { number, place: 0 };
        assert_eq!(refusal.explanation(), "the number is unknown");
    }
}

#[test]
fn a_refusal_is_an_error() {
    let error: Box<dyn Error> = Document::default().check().unwrap_err().into();
    let shown = "refused by number 4 (place 0): the tape is empty, no whole number of nodes, or longer than 65,535 nodes";
    assert_eq!(error.to_string(), shown);
}
