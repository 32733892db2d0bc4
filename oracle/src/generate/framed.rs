//! Documents of which some have text before their first node and an empty verse at their end, for lines and columns.

use super::generate;
use crate::document::{Document, Node, kind};
use crate::rng::Rng;

/// A byte order mark, the first and the last character of each width, combining marks, emoji, byte 13 with byte 10 and alone, a
/// separator that ends no line.
const BEFORE: [&str; 12] = [
    "\u{FEFF}",
    "\u{FEFF}λόγος ",
    "\u{7F}\u{80}\u{7FF}\u{800}\u{FFFF}\u{10000}\u{10FFFF}",
    "λο\u{301}γος ",
    "כִּי ",
    "فِي ",
    "नमः ",
    "👩\u{200D}👧😀",
    "λόγος\r\n",
    "λόγος\r",
    "λόγος\n\n",
    "λόγος\u{2028}",
];

/// The document of this seed; of one seed in four with a text before it that no node has, and half of these with a verse without a
/// byte behind it, which has a finding at the source's end.
pub fn partly_framed(seed: u64) -> Document {
    let mut document = generate(seed);
    let mut rng = Rng::new(seed.rotate_left(16));
    if rng.one_in(4) {
        // Repeated, so that columns pass 255, some of them only in bytes.
        let times = rng.pick(&[1, 1, 1, 30, 80]);
        put_before(&mut document, &rng.pick(&BEFORE).repeat(times));
        if rng.one_in(2) {
            end_in_verse(&mut document);
        }
    }
    document
}

fn put_before(document: &mut Document, text: &str) {
    document.source.splice(..0, text.bytes());
    for place in 0..document.node_count() {
        let mut node = document.node(place);
        // A start that leaves the source already goes on leaving it.
        node.start = node.start.saturating_add(text.len() as u32);
        document.set_node(place, node);
    }
}

/// Puts an empty Verse behind the last node where the root has no close of its own.
fn end_in_verse(document: &mut Document) {
    let mut nodes: Vec<Node> = document.nodes().collect();
    let count = nodes.len() as u32;
    if let Some(root) = nodes.first_mut().filter(|root| root.link == count) {
        root.link += 1;
        nodes.push(Node {
            kind: kind::VERSE,
            marker: u16::MAX,
            start: document.source.len() as u32,
            ..Node::default()
        });
        document.set_nodes(&nodes);
    }
}
