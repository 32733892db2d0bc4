//! The check of a tape beside the decoding of its nodes into a `Vec<Node>`, and the check of a table beside the
//! plain reading of its lines, on the same bytes, in one run.

use std::hint::black_box;
use std::time::Instant;

use oracle::document::{Document, Entry, Node, entries, kind, table_text};
use oracle::library;

const MARKERS: usize = 512;

fn node(kind: u8, start: usize, len: usize, link: usize) -> Node {
    Node {
        kind,
        start: start as u32,
        len: len as u32,
        link: link as u32,
        ..Node::default()
    }
}

/// Paragraphs of a verse and a text, over a source of as many lines, to the largest tape.
fn longest() -> Document {
    const LINE: &str = "\\p \\v 1 Ἐν ἀρχῇ ἦν\n";
    const NODES: usize = 65_535;
    let groups = (NODES - 1) / 4;
    let mut document = Document {
        source: LINE.repeat(groups).into_bytes(),
        ..Document::default()
    };
    let mut nodes = vec![node(kind::ROOT, 0, 0, 4 * groups + 1)];
    for group in 0..groups {
        let at = group * LINE.len();
        let first = nodes.len();
        nodes.push(node(kind::MARKER_OPEN, at, 2, first + 3));
        nodes.push(node(kind::VERSE, at + 3, 4, 1));
        nodes.push(node(kind::TEXT, at + 8, LINE.len() - 9, 0));
        nodes.push(node(kind::BLOCK_END, at + LINE.len(), 0, 0));
    }
    document.set_nodes(&nodes);
    document
}

fn full_table() -> Vec<u8> {
    let names: Vec<String> = (0..MARKERS).map(|k| format!("zmark{k}")).collect();
    let list: Vec<Entry<'_>> = (0..MARKERS)
        .map(|k| Entry {
            name: &names[k],
            category: k % 8,
            role: k % 3,
        })
        .collect();
    table_text(&list)
}

fn once(f: &mut dyn FnMut() -> bool) -> f64 {
    let start = Instant::now();
    for _ in 0..10 {
        assert!(f());
    }
    start.elapsed().as_secs_f64() / 10.0
}

/// The best times of the two, taken in turn.
fn best(ours: &mut dyn FnMut() -> bool, theirs: &mut dyn FnMut() -> bool) -> (f64, f64) {
    let (mut a, mut b) = (f64::MAX, f64::MAX);
    for _ in 0..60 {
        a = a.min(once(ours));
        b = b.min(once(theirs));
    }
    (a, b)
}

fn print_times(what: &str, count: usize, (ours, theirs): (f64, f64)) {
    let millions = |seconds: f64| count as f64 / seconds / 1e6;
    println!(
        "{what:24} library {:7.1} million/s   Rust {:7.1} million/s   ratio of times {:.2}",
        millions(ours),
        millions(theirs),
        ours / theirs
    );
}

fn main() {
    let document = longest();
    let n = document.node_count();
    let times = best(
        &mut || {
            library::tape_check(black_box(&document.source), black_box(&document.tape)).is_none()
        },
        &mut || black_box(black_box(&document).nodes().collect::<Vec<Node>>()).len() == n,
    );
    print_times("nodes, check / decode", n, times);
    let table = full_table();
    let times = best(
        &mut || library::table(black_box(&table)) == Ok(MARKERS),
        &mut || black_box(entries(black_box(&table))).is_some_and(|list| list.len() == MARKERS),
    );
    print_times("entries, index / read", MARKERS, times);
}
