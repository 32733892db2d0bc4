//! Document 01's numbers 1 to 10, written from that document alone and for reading, not for speed.

use crate::document::{CATEGORIES, Document, Entry, NODE_BYTES, Node, ROLES, entries, kind};

pub const LARGEST_SOURCE: usize = 1_048_576;
pub const MOST_NODES: usize = 65_535;
pub const MOST_MARKERS: usize = 512;
pub const DEEPEST: usize = 64;

/// The number that turns a document back, with its place; `None` for an accepted document.
/// The working lists have `seen_len` and `open_len` entries.
pub fn refusal(document: &Document, seen_len: usize, open_len: usize) -> Option<(u32, u64)> {
    table_refusal(&document.table)
        .or_else(|| source_refusal(&document.source))
        .or_else(|| tape_refusal(document))
        .or_else(|| working_list_refusal(document.node_count(), seen_len, open_len))
}

/// Number 1.
pub fn table_refusal(table: &[u8]) -> Option<(u32, u64)> {
    let mut at = 0;
    let mut lines = 0;
    while at < table.len() {
        let good_end = good_line_end(&table[at..], lines);
        let Some(len) = good_end else {
            return Some((1, at as u64));
        };
        at += len;
        lines += 1;
    }
    (lines % 3 != 0).then_some((1, at as u64))
}

/// The bytes of the line that `text` begins with, its byte 10 included, if it is a good line of
/// this number from 0.
fn good_line_end(text: &[u8], line: usize) -> Option<usize> {
    let end = text.iter().position(|&byte| byte == b'\n')?;
    let content = std::str::from_utf8(&text[..end]).ok()?;
    let good = match line % 3 {
        0 => line / 3 < MOST_MARKERS && content.strip_prefix("name=").is_some_and(is_name),
        1 => is_one_of(content.strip_prefix("category=")?, &CATEGORIES),
        _ => is_one_of(content.strip_prefix("role=")?, &ROLES),
    };
    good.then_some(end + 1)
}

fn is_name(name: &str) -> bool {
    (1..=16).contains(&name.len())
        && name
            .bytes()
            .all(|byte| byte.is_ascii_alphanumeric() || byte == b'-')
}

fn is_one_of(word: &str, words: &[&str]) -> bool {
    words.contains(&word)
}

/// Numbers 2 and 3.
pub fn source_refusal(source: &[u8]) -> Option<(u32, u64)> {
    if source.len() > LARGEST_SOURCE {
        return Some((2, 0));
    }
    let error = std::str::from_utf8(source).err()?;
    Some((3, error.valid_up_to() as u64))
}

/// Numbers 4 to 9, each over the whole tape before the next; table and source are good.
fn tape_refusal(document: &Document) -> Option<(u32, u64)> {
    let bytes = document.tape.len();
    if bytes == 0 || !bytes.is_multiple_of(NODE_BYTES) || bytes / NODE_BYTES > MOST_NODES {
        return Some((4, 0));
    }
    let source = std::str::from_utf8(&document.source).expect("number 3 comes before");
    let entries = entries(&document.table).expect("number 1 comes before");
    let nodes: Vec<Node> = document.nodes().collect();
    kind_refusal(&nodes)
        .or_else(|| span_refusal(&nodes, source))
        .or_else(|| root_link_refusal(&nodes))
        .or_else(|| nesting_refusal(&nodes))
        .or_else(|| label_refusal(&nodes, source, &entries))
}

/// Number 5.
fn kind_refusal(nodes: &[Node]) -> Option<(u32, u64)> {
    let bad = |(place, node): (usize, &Node)| {
        node.kind > kind::ERROR || (node.kind == kind::ROOT) != (place == 0)
    };
    let place = nodes.iter().enumerate().position(bad)?;
    Some((5, place as u64))
}

/// Number 6. The root's span isn't read.
fn span_refusal(nodes: &[Node], source: &str) -> Option<(u32, u64)> {
    let bad = |node: &Node| {
        node.end() > source.len() as u64
            || !source.is_char_boundary(node.start as usize)
            || !source.is_char_boundary(node.end() as usize)
    };
    let place = 1 + nodes[1..].iter().position(bad)?;
    Some((6, place as u64))
}

/// Number 7 for the root's link, on the tape as it stands.
fn root_link_refusal(nodes: &[Node]) -> Option<(u32, u64)> {
    let n = nodes.len();
    let link = nodes[0].link as usize;
    let opened = |place: usize| {
        nodes
            .iter()
            .any(|node| node.kind == kind::MARKER_OPEN && node.link as usize == place)
    };
    let ends_with_its_close = link == n - 1 && nodes[n - 1].is_close() && !opened(n - 1);
    (link != n && !ends_with_its_close).then_some((7, 0))
}

/// Numbers 7 and 8 from node 1 on; the root's link is good.
fn nesting_refusal(nodes: &[Node]) -> Option<(u32, u64)> {
    let mut awaited: Vec<usize> = Vec::new();
    for (place, node) in nodes.iter().enumerate().skip(1) {
        if node.kind == kind::MARKER_OPEN {
            if awaited.len() == DEEPEST {
                return Some((8, place as u64));
            }
            awaited.push(node.link as usize);
        } else if node.is_close() {
            let innermost = awaited.pop().unwrap_or(nodes[0].link as usize);
            if innermost != place {
                return Some((7, place as u64));
            }
        }
    }
    (!awaited.is_empty()).then_some((7, nodes.len() as u64))
}

/// Number 9.
fn label_refusal(nodes: &[Node], source: &str, entries: &[Entry<'_>]) -> Option<(u32, u64)> {
    let bad = |node: &Node| {
        let labelled = matches!(node.kind, kind::CHAPTER | kind::VERSE);
        let entry = entries.get(node.marker as usize);
        let name = marker_name(&source[node.start as usize..node.end() as usize]);
        labelled
            && entry.is_some_and(|entry| {
                entry.name.len() < name.len() && !name.is_char_boundary(entry.name.len())
            })
    };
    let place = 1 + nodes[1..].iter().position(bad)?;
    Some((9, place as u64))
}

/// The name that a node's text begins with.
pub fn marker_name(text: &str) -> &str {
    let text = text.strip_prefix('\\').unwrap_or(text);
    let text = text.strip_prefix('+').unwrap_or(text);
    let stops = |c: char| is_blank(c) || matches!(c, '*' | '|' | '\\');
    &text[..text.find(stops).unwrap_or(text.len())]
}

/// Document 01's list of blanks.
pub fn is_blank(c: char) -> bool {
    matches!(
        u32::from(c),
        0x9..=0xD
            | 0x20
            | 0x85
            | 0xA0
            | 0x1680
            | 0x2000..=0x200A
            | 0x2028
            | 0x2029
            | 0x202F
            | 0x205F
            | 0x3000
    )
}

/// Number 10.
pub fn working_list_refusal(n: usize, seen_len: usize, open_len: usize) -> Option<(u32, u64)> {
    (seen_len < n || open_len < n).then_some((10, n as u64))
}

/// The Verse nodes that the check visits, in its order, which is that of the tape: those below no MarkerOpen without a table
/// entry.
pub fn visited_verses(document: &Document) -> Vec<usize> {
    let markers = entries(&document.table).map_or(0, |entries| entries.len());
    let n = document.node_count();
    let mut verses = Vec::new();
    let mut place = 1;
    while place < n {
        let node = document.node(place);
        if node.kind == kind::MARKER_OPEN && node.marker as usize >= markers {
            place = node.link as usize;
        } else if node.kind == kind::VERSE {
            verses.push(place);
        }
        place += 1;
    }
    verses
}

/// How many Verse nodes the check visits.
pub fn verses_visited(document: &Document) -> u64 {
    visited_verses(document).len() as u64
}

#[cfg(test)]
mod tests;
