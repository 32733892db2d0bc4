//! Nodes in memory as a tape.

use harkoxin::{MarkerId, Node, NodeKind, Tape};

use crate::common::{Document, NODES, SOURCE, TABLE};

#[test]
fn nodes_are_a_tape_without_a_copy() {
    let nodes = &NODES[2..];
    for tape in [Tape::from_nodes(nodes), Tape::from(nodes)] {
        assert_eq!(tape.as_bytes().as_ptr(), nodes.as_ptr().cast());
        assert_eq!((tape.len(), tape.as_bytes().len()), (7, 112));
    }
}

#[test]
fn nodes_have_the_bytes_of_the_file() {
    let file = Document::example("listing").tape;
    assert_eq!(Tape::from_nodes(&NODES).as_bytes(), file);
    assert_eq!(Tape::from_bytes(&file), Tape::from_nodes(&NODES));
}

#[test]
fn fields_stand_in_their_order() {
    let node = Node {
        kind: NodeKind::Error,
        flags: 2,
        marker: MarkerId(0x0403),
        start: 0x0807_0605,
        len: 0x0C0B_0A09,
        link: 0x100F_0E0D,
    };
    let bytes = [8, 2, 3, 4, 5, 6, 7, 8, 9, 10, 11, 12, 13, 14, 15, 16];
    assert_eq!(Tape::from_nodes(&[node]).as_bytes(), bytes);
}

#[test]
fn a_tape_counts_whole_nodes() {
    assert!(Tape::from_nodes(&[]).is_empty());
    assert!(Tape::from_bytes(&[0; 15]).is_empty());
    assert_eq!(Tape::from_bytes(&[0; 47]).len(), 2);
}

#[test]
fn a_marker_that_is_unknown_is_skipped() {
    let mut nodes = NODES;
    nodes[5].marker = MarkerId::UNKNOWN;
    let document = Document::of(TABLE, SOURCE, &nodes);
    let report = document.check().unwrap();
    // The verse stands inside the paragraph that is skipped.
    assert_eq!((report.total(), report.verses()), (0, 0));
}
