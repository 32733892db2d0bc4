//! Damage to a document that is well formed. Part of it leaves the document acceptable.

use crate::document::{Document, NODE_BYTES, Node, kind};
use crate::refusals::{LARGEST_SOURCE, MOST_MARKERS, MOST_NODES};
use crate::rng::Rng;

/// Sequences that are no UTF-8, or only begin one.
const ILL_FORMED: [&[u8]; 20] = [
    b"\x80",
    b"\xBF",
    b"\xC0\x80",
    b"\xC1\xBF",
    b"\xC2",
    b"\xC2\x20",
    b"\xE0\x80\x80",
    b"\xE0\x9F\xBF",
    b"\xE1\x80",
    b"\xED\xA0\x80",
    b"\xED\xBF\xBF",
    b"\xEF\xBF",
    b"\xF0\x80\x80\x80",
    b"\xF0\x8F\xBF\xBF",
    b"\xF0\x90\x80",
    b"\xF4\x90\x80\x80",
    b"\xF5\x80\x80\x80",
    b"\xF8\x88\x80\x80\x80",
    b"\xFE",
    b"\xFF",
];

/// Bytes that mean something to the check.
const MEANINGFUL: &[u8] = b"\\|*=\"-+ \n0123456789abvcz";

/// Lines that a table text doesn't have, or not there.
const LINES: [&[u8]; 16] = [
    b"\n",
    b"name=\n",
    b"name=id\n",
    b"name=abcdefghijklmnopq\n",
    b"name=a_b\n",
    b"name=\xC3\xA9\n",
    b"name= id\n",
    b"Name=id\n",
    b"category=\n",
    b"category=verse\n",
    b"category=verses\n",
    b"role=\n",
    b"role=content\r\n",
    b"role=content\n",
    b"role=Content\n",
    b"\xEF\xBB\xBFname=id\n",
];

/// One or more changes, mostly one.
pub fn damage(rng: &mut Rng, document: &mut Document) {
    for _ in 0..rng.weighted(&[0, 75, 18, 7]) {
        match rng.weighted(&[14, 26, 60]) {
            0 => damage_table(rng, &mut document.table),
            1 => damage_source(rng, &mut document.source),
            _ => damage_tape(rng, document),
        }
    }
}

// --- bytes of any list ---

fn change_byte(rng: &mut Rng, list: &mut [u8]) {
    if !list.is_empty() {
        let place = rng.below(list.len());
        list[place] = rng.word() as u8;
    }
}

fn insert_bytes(rng: &mut Rng, list: &mut Vec<u8>, bytes: &[u8]) {
    let place = rng.below(list.len() + 1);
    list.splice(place..place, bytes.iter().copied());
}

fn remove_byte(rng: &mut Rng, list: &mut Vec<u8>) {
    if !list.is_empty() {
        list.remove(rng.below(list.len()));
    }
}

fn cut(rng: &mut Rng, list: &mut Vec<u8>) {
    let kept = rng.below(list.len() + 1);
    list.truncate(kept);
}

// --- the table ---

pub fn damage_table(rng: &mut Rng, table: &mut Vec<u8>) {
    match rng.below(12) {
        0 => change_byte(rng, table),
        1 => remove_byte(rng, table),
        2 => {
            let byte = rng.pick(MEANINGFUL);
            insert_bytes(rng, table, &[byte]);
        }
        3 => cut(rng, table),
        4 => {
            table.pop();
        }
        5..8 => change_lines(rng, table),
        8 => table.extend_from_slice(rng.pick(&LINES)),
        9 if rng.one_in(8) => {
            let entry = b"name=x\ncategory=other\nrole=content\n";
            *table = entry.repeat(MOST_MARKERS + rng.below(3));
        }
        _ => shorten_table(rng, table),
    }
}

fn lines(table: &[u8]) -> Vec<Vec<u8>> {
    table
        .split_inclusive(|&byte| byte == b'\n')
        .map(<[u8]>::to_vec)
        .collect()
}

fn change_lines(rng: &mut Rng, table: &mut Vec<u8>) {
    let mut lines = lines(table);
    let place = rng.below(lines.len() + 1);
    match rng.below(4) {
        0 => lines.insert(place, rng.pick(&LINES).to_vec()),
        _ if place == lines.len() => {}
        1 => lines[place] = rng.pick(&LINES).to_vec(),
        2 => {
            lines.remove(place);
        }
        _ => {
            let other = rng.below(lines.len());
            lines.swap(place, other);
        }
    }
    *table = lines.concat();
}

/// Fewer whole entries: markers on the tape now lie past the table, or mean another entry.
fn shorten_table(rng: &mut Rng, table: &mut Vec<u8>) {
    let mut lines = lines(table);
    if lines.len() >= 3 {
        let first = 3 * rng.below(lines.len() / 3);
        lines.drain(first..first + 3);
    }
    *table = lines.concat();
}

// --- the source ---

pub fn damage_source(rng: &mut Rng, source: &mut Vec<u8>) {
    match rng.below(14) {
        0 => change_byte(rng, source),
        1..6 => change_ascii(rng, source),
        6 => remove_byte(rng, source),
        7..9 => {
            let byte = rng.pick(MEANINGFUL);
            insert_bytes(rng, source, &[byte]);
        }
        9 => insert_bytes(rng, source, "é".as_bytes()),
        10 => {
            let bytes = rng.pick(&ILL_FORMED);
            insert_bytes(rng, source, bytes);
        }
        11 => cut(rng, source),
        12 => source.extend_from_slice(rng.pick(&ILL_FORMED)),
        _ if rng.one_in(40) => {
            source.resize(LARGEST_SOURCE + rng.below(2), b' ');
        }
        _ => source.extend_from_slice(b" more"),
    }
}

/// One ASCII byte for another: the source stays UTF-8 and every span stays good.
fn change_ascii(rng: &mut Rng, source: &mut [u8]) {
    if source.is_empty() {
        return;
    }
    let place = rng.below(source.len());
    if source[place].is_ascii() {
        source[place] = rng.pick(MEANINGFUL);
    }
}

// --- the tape ---

fn damage_tape(rng: &mut Rng, document: &mut Document) {
    match rng.below(20) {
        0 => change_byte(rng, &mut document.tape),
        1 if rng.one_in(4) => cut(rng, &mut document.tape),
        1 => remove_byte(rng, &mut document.tape),
        2 if rng.one_in(250) => fill_tape(rng, document),
        2 if rng.one_in(4) => document.tape.clear(),
        2 => document.tape.push(0),
        3..5 => copy_node(rng, document),
        5..7 => drop_node(rng, document),
        7 => swap_nodes(rng, document),
        8..11 => with_leaf(rng, document),
        _ => change_field(rng, document),
    }
}

/// Text nodes up to the most nodes that a tape may have, or one more.
fn fill_tape(rng: &mut Rng, document: &mut Document) {
    let n = MOST_NODES + rng.below(2);
    let text = Node {
        kind: kind::TEXT,
        ..Node::default()
    };
    let root = Node {
        link: n as u32,
        ..Node::default()
    };
    let mut nodes = vec![text; n];
    nodes[0] = root;
    document.set_nodes(&nodes);
}

fn node_bytes(place: usize) -> std::ops::Range<usize> {
    place * NODE_BYTES..(place + 1) * NODE_BYTES
}

fn copy_node(rng: &mut Rng, document: &mut Document) {
    if document.node_count() > 0 {
        let node = document.node(rng.below(document.node_count()));
        let at = rng.from_to(0, document.node_count()) * NODE_BYTES;
        document.tape.splice(at..at, node.to_bytes());
    }
}

fn drop_node(rng: &mut Rng, document: &mut Document) {
    if document.node_count() > 0 {
        let place = rng.below(document.node_count());
        document.tape.drain(node_bytes(place));
    }
}

fn swap_nodes(rng: &mut Rng, document: &mut Document) {
    let n = document.node_count();
    if n > 1 {
        let place = rng.below(n - 1);
        let (this, next) = (document.node(place), document.node(place + 1));
        document.set_node(place, next);
        document.set_node(place + 1, this);
    }
}

/// A copy of a leaf more, or a leaf less, with every link moved along: the nesting stays good.
fn with_leaf(rng: &mut Rng, document: &mut Document) {
    let mut nodes: Vec<Node> = document.nodes().collect();
    let is_leaf = |node: &Node| node.kind != kind::ROOT && node.kind != kind::MARKER_OPEN;
    let leaves: Vec<usize> = (0..nodes.len())
        .filter(|&place| is_leaf(&nodes[place]) && !nodes[place].is_close())
        .collect();
    if leaves.is_empty() {
        return;
    }
    let place = rng.pick(&leaves);
    if rng.percent(50) {
        nodes.insert(place, nodes[place]);
        move_links(&mut nodes, place, 1);
    } else {
        nodes.remove(place);
        move_links(&mut nodes, place, -1);
    }
    document.set_nodes(&nodes);
}

fn move_links(nodes: &mut [Node], from: usize, by: i32) {
    for node in nodes {
        let is_link = matches!(node.kind, kind::ROOT | kind::MARKER_OPEN);
        if is_link && node.link as usize > from {
            node.link = node.link.wrapping_add_signed(by);
        }
    }
}

fn change_field(rng: &mut Rng, document: &mut Document) {
    let n = document.node_count();
    if n == 0 {
        return;
    }
    let place = if rng.one_in(12) { 0 } else { rng.below(n) };
    let mut node = document.node(place);
    let by = rng.pick(&[1, 1, -1, -1, 2, -2, i32::MAX]);
    match rng.weighted(&[4, 4, 3, 3, 6, 1]) {
        0 => node.start = node.start.wrapping_add_signed(by),
        1 => node.len = node.len.wrapping_add_signed(by),
        2 => node.link = node.link.wrapping_add_signed(by),
        3 => node.marker = changed_marker(rng, node.marker),
        4 => node.kind = changed_kind(rng, node.kind),
        _ => node.link = rng.below(n + 2) as u32,
    }
    document.set_node(place, node);
}

fn changed_marker(rng: &mut Rng, marker: u16) -> u16 {
    match rng.below(3) {
        0 => marker.wrapping_add(1),
        1 => rng.below(80) as u16,
        _ => rng.word() as u16,
    }
}

/// Mostly another kind of leaf for a leaf, and another close for a close.
fn changed_kind(rng: &mut Rng, kind: u8) -> u8 {
    if rng.one_in(6) {
        return rng.below(12) as u8;
    }
    match kind {
        kind::MARKER_CLOSE => kind::BLOCK_END,
        kind::BLOCK_END => kind::MARKER_CLOSE,
        kind::CHAPTER | kind::VERSE | kind::TEXT | kind::ATTRIBUTE | kind::ERROR => rng.pick(&[
            kind::CHAPTER,
            kind::VERSE,
            kind::TEXT,
            kind::ATTRIBUTE,
            kind::ERROR,
        ]),
        _ => rng.below(9) as u8,
    }
}
