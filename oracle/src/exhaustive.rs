//! Small documents, all of them.

mod labels;
mod pairs;

pub use labels::every_label;
pub use pairs::{
    every_pair_of_bases, every_pair_of_labels, every_pair_of_spans, every_row_of_milestones,
};

use crate::document::{Document, Node, kind, table_text};
use crate::samples::{Builder, entry, node};

/// Calls `visit` with every tape of up to `most` nodes over the kinds 0 to 9 and the links 0 to
/// n + 1. Every node has the whole source as its span and marker 0.
pub fn every_tape(most: usize, mut visit: impl FnMut(&Document)) {
    let source = "\\p 1";
    let mut document = Document {
        table: table_text(&[entry("p", 3, 2)]),
        source: source.as_bytes().to_vec(),
        tape: Vec::new(),
    };
    for n in 0..=most {
        let first = node(0, 0, 0, source.len() as u32, 0);
        document.set_nodes(&vec![first; n]);
        loop {
            visit(&document);
            if !next_tape(&mut document, n) {
                break;
            }
        }
    }
}

/// Counts the tape up, node by node; false after the last one.
fn next_tape(document: &mut Document, n: usize) -> bool {
    for place in 0..n {
        let mut node = document.node(place);
        let more = next_node(&mut node, n as u32);
        document.set_node(place, node);
        if more {
            return true;
        }
    }
    false
}

/// Counts kind and link up; false where both begin anew.
fn next_node(node: &mut Node, n: u32) -> bool {
    const LAST_KIND: u8 = 9;
    node.link = if node.link > n { 0 } else { node.link + 1 };
    if node.link > 0 {
        return true;
    }
    node.kind = if node.kind == LAST_KIND {
        0
    } else {
        node.kind + 1
    };
    node.kind > 0
}

/// A piece of a token.
#[derive(Clone, Copy)]
enum Step {
    /// Kind, marker, text, link.
    Leaf(u8, u16, &'static str, u32),
    /// Marker and text.
    Open(u16, &'static str),
    /// Kind and text of the close that belongs to the innermost open.
    Close(u8, &'static str),
}

use Step::{Close, Leaf, Open};

const END: Step = Close(kind::BLOCK_END, "");

const fn text(content: &'static str) -> Step {
    Leaf(kind::TEXT, 0, content, 0)
}

/// The markers of the table, in its order.
const MARKERS: [(&str, usize, usize); 16] = [
    ("id", 0, 1),
    ("c", 1, 0),
    ("v", 2, 0),
    ("p", 3, 2),
    ("b", 3, 2),
    ("ca", 4, 1),
    ("va", 4, 1),
    ("vp", 4, 1),
    ("qt-s", 6, 0),
    ("qt-e", 6, 0),
    ("tr", 3, 2),
    ("tc", 4, 0),
    ("w", 4, 0),
    ("fr", 4, 1),
    ("f", 5, 1),
    ("s", 3, 1),
];

/// Markers past the table are skipped.
const PAST: u16 = MARKERS.len() as u16;

/// The last token closes the innermost open; an open token leaves its marker open.
const TOKENS: [&[Step]; 26] = [
    &[Open(0, "\\id"), text(" GEN\n"), END],
    &[Leaf(kind::CHAPTER, 1, "\\c 1\n", 1)],
    &[Leaf(kind::CHAPTER, 1, "\\c 2\n", 2)],
    &[Leaf(kind::VERSE, 2, "\\v 1 ", 1)],
    &[Leaf(kind::VERSE, 2, "\\v 2 ", 2)],
    &[Leaf(kind::VERSE, 2, "\\v1a ", 1)],
    &[Leaf(kind::VERSE, 2, "\\v x ", 0)],
    &[Leaf(kind::VERSE, 2, "\\v04294967296 ", 0)],
    &[Open(3, "\\p")],
    &[Open(4, "\\b")],
    &[
        Open(5, "\\ca"),
        text(" 3"),
        Close(kind::MARKER_CLOSE, "\\ca*"),
    ],
    &[Open(6, "\\va")],
    &[
        Open(7, "\\vp"),
        text(" 3"),
        Close(kind::MARKER_CLOSE, "\\vp*"),
    ],
    &[Open(8, "\\qt-s"), Close(kind::MARKER_CLOSE, "\\*")],
    &[Open(9, "\\qt-e"), Close(kind::MARKER_CLOSE, "\\*")],
    &[Open(10, "\\tr")],
    &[Open(11, "\\tc1"), END],
    &[Open(11, "\\tcr2-3")],
    &[Open(12, "\\w")],
    &[Leaf(kind::ATTRIBUTE, 0, "|a=\"\" b", 0)],
    &[text(" ")],
    &[text(" word")],
    &[Open(13, "\\fr")],
    &[Open(14, "\\f")],
    &[Open(PAST, "\\zz")],
    &[END],
];

const CLOSING: usize = TOKENS.len() - 1;

struct Tokens<F> {
    builder: Builder,
    document: Document,
    visit: F,
}

/// Calls `visit` with every document of up to `most` tokens; what is open at the end is closed.
pub fn every_nesting(most: usize, visit: impl FnMut(&Document)) {
    let entries = MARKERS.map(|(name, category, role)| entry(name, category, role));
    let mut tokens = Tokens {
        builder: Builder::default(),
        document: Document {
            table: table_text(&entries),
            ..Document::default()
        },
        visit,
    };
    tokens.visit_closed();
    tokens.extend(most);
}

/// What brings a builder back to an earlier state.
struct Mark {
    source: usize,
    nodes: usize,
    open: Vec<usize>,
}

impl<F: FnMut(&Document)> Tokens<F> {
    fn extend(&mut self, more: usize) {
        if more == 0 {
            return;
        }
        for (place, token) in TOKENS.iter().enumerate() {
            let closing = place == CLOSING;
            if closing && self.builder.open.is_empty() {
                continue;
            }
            let mark = self.mark();
            self.put(token);
            // The document of a close at the end is the one without it, which is closed anyway.
            if !closing {
                self.visit_closed();
            }
            self.extend(more - 1);
            self.go_back(mark);
        }
    }

    fn put(&mut self, steps: &[Step]) {
        for &step in steps {
            match step {
                Leaf(kind, marker, text, link) => self.builder.leaf(kind, marker, text, link),
                Open(marker, text) => self.builder.open(marker, text),
                Close(kind, text) => self.builder.close(kind, text),
            };
        }
    }

    fn mark(&self) -> Mark {
        Mark {
            source: self.builder.source.len(),
            nodes: self.builder.nodes.len(),
            open: self.builder.open.clone(),
        }
    }

    fn go_back(&mut self, mark: Mark) {
        self.builder.source.truncate(mark.source);
        self.builder.nodes.truncate(mark.nodes);
        self.builder.open = mark.open;
    }

    fn visit_closed(&mut self) {
        let mark = self.mark();
        self.builder.finish(&mut self.document);
        (self.visit)(&self.document);
        self.go_back(mark);
    }
}

#[cfg(test)]
mod tests {
    use super::*;
    use crate::refusals::refusal;
    use std::collections::HashSet;

    #[test]
    fn tapes_are_all_there_and_differ() {
        let mut seen = HashSet::new();
        every_tape(2, |document| {
            assert!(seen.insert(document.tape.clone()));
        });
        assert_eq!(seen.len(), 1 + 30 + 40 * 40);
    }

    #[test]
    fn nestings_differ_and_are_accepted() {
        let mut seen = HashSet::new();
        every_nesting(3, |document| {
            let n = document.node_count();
            assert_eq!(refusal(document, n, n), None);
            let mut bytes = document.source.clone();
            bytes.extend_from_slice(&document.tape);
            assert!(seen.insert(bytes));
        });
        assert!(seen.len() > 22 * 22 * 22, "{}", seen.len());
    }
}
