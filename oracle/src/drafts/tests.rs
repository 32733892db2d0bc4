//! What holds of every text, tried on all of these.

use super::*;
use crate::coverage::depth;
use crate::document::{Document, kind};
use crate::parts::{labels, lookup, parse_verse_part, seen_nodes};
use crate::refusals::{DEEPEST, MOST_NODES, refusal};
use crate::samples::node;

const ENOUGH: usize = usize::MAX;

fn document(draft: &Draft, nodes: &[Node]) -> Document {
    let mut document = Document {
        table: draft.table.clone(),
        source: draft.text.clone(),
        tape: Vec::new(),
    };
    document.set_nodes(nodes);
    document
}

/// Nodes 1 to n - 1 lie end to end from 0 to the text's length, only BlockEnds are empty, so that n is at most the bytes and 1.
fn lie_end_to_end(draft: &Draft, nodes: &[Node]) {
    let mut at = 0;
    for node in &nodes[1..] {
        assert_eq!(node.start, at);
        assert_eq!(node.len == 0, node.kind == kind::BLOCK_END);
        at += node.len;
    }
    assert_eq!(at as usize, draft.text.len());
    assert!(nodes.len() <= draft.text.len() + 1);
}

/// Fields that no sentence names are as in the listing's example: 0, but for the root's and the marker of a close.
fn other_fields_are_those_of_the_example(draft: &Draft, nodes: &[Node]) {
    let (bytes, n) = (draft.text.len() as u32, nodes.len() as u32);
    assert_eq!(nodes[0], node(kind::ROOT, 0, 0, bytes, n));
    for node in nodes {
        assert_eq!(node.flags, 0);
        match node.kind {
            kind::TEXT | kind::ATTRIBUTE => assert_eq!((node.marker, node.link), (0, 0)),
            kind::MARKER_CLOSE | kind::BLOCK_END => assert_eq!(node.link, 0),
            kind::MARKER_OPEN => assert_eq!(node.marker, nodes[node.link as usize].marker),
            _ => {}
        }
    }
}

/// Every backslash begins a marker or a close, and nothing else does.
fn backslashes_begin_nodes(draft: &Draft, nodes: &[Node]) {
    for node in &nodes[1..] {
        let part = &draft.text[node.start as usize..node.end() as usize];
        let backslashes = part.iter().filter(|&&byte| byte == b'\\').count();
        let is_run = matches!(node.kind, kind::TEXT | kind::ATTRIBUTE);
        assert_eq!(backslashes, usize::from(!is_run && !part.is_empty()));
        assert!(is_run || part.is_empty() || part[0] == b'\\');
    }
}

/// Numbers 4 to 9 don't turn the tape back, but for 8 and 4; an accepted one's markers and numbers are the published code's.
fn is_accepted(draft: &Draft, nodes: &[Node]) {
    let document = document(draft, nodes);
    match refusal(&document, ENOUGH, ENOUGH) {
        None => {
            assert!(nodes.len() <= MOST_NODES && depth(&document) <= DEEPEST);
            has_the_published_values(&document);
        }
        Some((4, 0)) => assert!(nodes.len() > MOST_NODES),
        Some((8, place)) => {
            let opens = nodes[..place as usize].iter();
            let deep = opens.fold(0, |deep, node| match node.kind {
                kind::MARKER_OPEN => deep + 1,
                _ => deep - usize::from(node.is_close()),
            });
            assert_eq!(deep, DEEPEST);
            assert_eq!(nodes[place as usize].kind, kind::MARKER_OPEN);
        }
        other => panic!("{other:?}"),
    }
}

fn has_the_published_values(document: &Document) {
    for (place, (label, _)) in labels(document) {
        let label = String::from_utf8(label).expect("a label is UTF-8");
        let link = parse_verse_part(&label).map_or(0, |(number, _)| number);
        assert_eq!(document.node(place).link, link);
    }
    for (node, seen) in document.nodes().skip(1).zip(seen_nodes(document)) {
        if matches!(node.kind, kind::MARKER_OPEN | kind::CHAPTER | kind::VERSE) {
            let name = String::from_utf8(seen.name).expect("a name is UTF-8");
            assert_eq!(lookup(&document.table, &name), Some(node.marker));
        }
    }
}

/// The place of 16 or 17 is a backslash, or for 17 the text's length, and no earlier one has a fault: the text up to there is
/// read, or only what is open at its end turns it back.
fn is_the_first_fault(draft: &Draft, (number, place): Refused) {
    let (before, rest) = draft.text.split_at(place as usize);
    match rest.first() {
        Some(&byte) => {
            assert_eq!(byte, b'\\');
            let answer = read(&draft.table, before, ENOUGH);
            assert!(answer.is_ok() || answer == Err((17, place)));
        }
        None => assert_eq!(number, 17),
    }
}

fn holds(draft: &Draft) {
    match draft.read(ENOUGH) {
        Ok(nodes) => {
            lie_end_to_end(draft, &nodes);
            other_fields_are_those_of_the_example(draft, &nodes);
            backslashes_begin_nodes(draft, &nodes);
            is_accepted(draft, &nodes);
            let n = nodes.len();
            assert_eq!(draft.read(n - 1), Err((18, n as u64)));
            assert_eq!(draft.read(n), Ok(nodes));
        }
        Err(refused @ (16 | 17, _)) => {
            is_the_first_fault(draft, refused);
            assert_eq!(draft.read(0), Err(refused));
        }
        Err((number, _)) => assert!((1..=3).contains(&number)),
    }
}

#[test]
fn it_holds_of_every_small_text() {
    every_draft(4).for_each(|draft| holds(&draft));
}

#[test]
fn it_holds_of_the_texts_of_seeds() {
    (0..20_000).for_each(|seed| holds(&draft(seed)));
}

#[test]
fn it_holds_of_large_texts() {
    for Large { draft, .. } in large() {
        holds(&draft(1));
    }
}

#[test]
fn every_feature_is_shown_by_the_texts_of_seeds() {
    let mut shown = Shown::default();
    for seed in 0..20_000 {
        let draft = draft(seed);
        let needed = draft.read(ENOUGH).map_or(9, |nodes| nodes.len());
        let room = room(seed, needed);
        shown.add(&draft, room, &draft.read(room));
    }
    assert_eq!(shown.missing(), [""; 0], "{}", shown.report());
}

#[test]
fn the_first_texts_are_the_recorded_ones() {
    let mut sum: u64 = 0xCBF2_9CE4_8422_2325;
    for seed in 0..64 {
        let Draft { table, text } = draft(seed);
        for byte in table.iter().chain(&text) {
            sum = (sum ^ u64::from(*byte)).wrapping_mul(0x0000_0100_0000_01B3);
        }
    }
    assert_eq!(sum, 4339455104788169350);
}
