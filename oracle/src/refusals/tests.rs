use super::*;
use crate::document::table_text;
use crate::samples::{Builder, document, entry, listing, node};

const GOOD: &[u8] = b"name=p\ncategory=paragraph\nrole=boundary\n";

fn of(document: &Document) -> Option<(u32, u64)> {
    let n = document.node_count();
    refusal(document, n, n)
}

fn of_table(table: &[u8]) -> Option<(u32, u64)> {
    of(&Document {
        table: table.to_vec(),
        ..alone()
    })
}

fn of_source(source: &[u8]) -> Option<(u32, u64)> {
    of(&Document {
        source: source.to_vec(),
        ..alone()
    })
}

/// Nodes over the source `aé`, of three bytes, under the table of `p`.
fn of_nodes(nodes: &[Node]) -> Option<(u32, u64)> {
    of(&document(&[entry("p", 3, 2)], "aé", nodes))
}

fn root(link: u32) -> Node {
    node(kind::ROOT, 0, 0, 0, link)
}

fn open(link: u32) -> Node {
    node(kind::MARKER_OPEN, 0, 0, 0, link)
}

fn end() -> Node {
    node(kind::BLOCK_END, 0, 0, 0, 0)
}

fn text(start: u32, len: u32) -> Node {
    node(kind::TEXT, 0, start, len, 0)
}

/// The root alone.
fn alone() -> Document {
    document(&[], "", &[root(1)])
}

// --- 1 ---

#[test]
fn tables_that_pass() {
    assert_eq!(of_table(b""), None);
    assert_eq!(of_table(GOOD), None);
    assert_eq!(of_table(&GOOD.repeat(2)), None);
    assert_eq!(
        of_table(b"name=AZaz09-bcdefghij\ncategory=other\nrole=content\n"),
        None
    );
    for category in CATEGORIES {
        for role in ROLES {
            let table = format!("name=-\ncategory={category}\nrole={role}\n");
            assert_eq!(of_table(table.as_bytes()), None);
        }
    }
}

#[test]
fn a_bad_line_is_given_by_its_first_byte() {
    let second = GOOD.len() as u64;
    for line in [
        "\n",
        "name=\n",
        "name=abcdefghijklmnopq\n",
        "name=a_b\n",
        "name=é\n",
        "name=p \n",
        "name=p\r\n",
        " name=p\n",
        "\u{FEFF}name=p\n",
        "category=paragraph\n",
        "Name=p\n",
    ] {
        let table = [GOOD, line.as_bytes(), b"category=verse\nrole=content\n"].concat();
        assert_eq!(of_table(&table), Some((1, second)), "{line:?}");
    }
    assert_eq!(of_table(b"name=p\ncategory=verses\nrole="), Some((1, 7)));
    assert_eq!(of_table(b"name=p\ncategory=\xFF\n"), Some((1, 7)));
    assert_eq!(
        of_table(b"name=p\ncategory=verse\nrole=bound\n"),
        Some((1, 22))
    );
}

#[test]
fn a_last_line_without_its_end_is_bad_whatever_it_holds() {
    assert_eq!(of_table(&GOOD[..GOOD.len() - 1]), Some((1, 26)));
    assert_eq!(of_table(b"name=p"), Some((1, 0)));
    assert_eq!(of_table(b"name=p\nx"), Some((1, 7)));
}

#[test]
fn an_unfinished_triple_gives_the_length() {
    assert_eq!(of_table(b"name=p\n"), Some((1, 7)));
    assert_eq!(of_table(b"name=p\ncategory=verse\n"), Some((1, 22)));
}

#[test]
fn the_513th_marker_is_bad_at_its_first_line() {
    let most = GOOD.repeat(512);
    assert_eq!(of_table(&most), None);
    for more in [GOOD, b"x", b"name=p\n"] {
        let table = [&most[..], more].concat();
        assert_eq!(of_table(&table), Some((1, most.len() as u64)));
    }
}

// --- 2 and 3 ---

#[test]
fn the_source_has_a_longest_length() {
    assert_eq!(of_source(&vec![b'a'; 1_048_576]), None);
    assert_eq!(of_source(&vec![b'a'; 1_048_577]), Some((2, 0)));
    assert_eq!(of_source(&vec![0xFF; 1_048_577]), Some((2, 0)));
}

#[test]
fn ill_formed_sources_are_given_by_their_place() {
    for (source, place) in [
        (&b"a\x80"[..], 1),
        (b"\xC0\x80", 0),
        (b"\xC3\xA9\xC3", 2),
        (b"ab\xE0\x9F\x80", 2),
        (b"\xED\xA0\x80", 0),
        (b"a\xF4\x90\x80\x80", 1),
        (b"\xF0\x90\x80x", 0),
        (b"\xF1\x80\x80\xE1\x80\xC2b\x80", 0),
    ] {
        assert_eq!(of_source(source), Some((3, place)), "{source:x?}");
    }
    assert_eq!(of_source("\u{7FF}\u{D7FF}\u{10FFFF}".as_bytes()), None);
}

// --- 4 and 5 ---

#[test]
fn the_tape_has_whole_nodes_and_not_too_many() {
    for len in [0, 1, 15, 17, 31] {
        let document = Document {
            tape: vec![0; len],
            ..Document::default()
        };
        assert_eq!(of(&document), Some((4, 0)), "{len}");
    }
    for (n, expected) in [(65_535, None), (65_536, Some((4, 0)))] {
        let mut nodes = vec![text(0, 0); n];
        nodes[0] = root(n as u32);
        assert_eq!(of_nodes(&nodes), expected);
    }
}

#[test]
fn kinds_and_the_root() {
    assert_eq!(of_nodes(&[text(0, 0)]), Some((5, 0)));
    assert_eq!(of_nodes(&[node(9, 0, 0, 0, 1)]), Some((5, 0)));
    assert_eq!(of_nodes(&[root(2), root(2)]), Some((5, 1)));
    assert_eq!(of_nodes(&[root(2), node(9, 0, 0, 0, 0)]), Some((5, 1)));
    for kind in [3, 4, 5, 6, 8] {
        assert_eq!(of_nodes(&[root(2), node(kind, 0, 0, 0, 0)]), None);
    }
}

// --- 6 ---

#[test]
fn spans_lie_inside_and_between_characters() {
    let with = |start, len| of_nodes(&[root(2), text(start, len)]);
    assert_eq!(with(0, 3), None);
    assert_eq!(with(3, 0), None);
    assert_eq!(with(4, 0), Some((6, 1)));
    assert_eq!(with(1, 3), Some((6, 1)));
    assert_eq!(with(0, 2), Some((6, 1)));
    assert_eq!(with(2, 1), Some((6, 1)));
    assert_eq!(with(2, 0), Some((6, 1)));
    assert_eq!(with(u32::MAX, 1), Some((6, 1)));
    assert_eq!(with(1, u32::MAX), Some((6, 1)));
}

#[test]
fn closes_have_spans_too_and_the_root_has_none() {
    let close = node(kind::BLOCK_END, 0, 2, 0, 0);
    assert_eq!(of_nodes(&[root(3), open(2), close]), Some((6, 2)));
    let odd_root = node(kind::ROOT, 9, 2, u32::MAX, 1);
    assert_eq!(of_nodes(&[odd_root]), None);
}

// --- 7 and 8 ---

#[test]
fn the_root_links_to_the_end_or_to_its_own_last_close() {
    assert_eq!(of_nodes(&[root(1)]), None);
    assert_eq!(of_nodes(&[root(0)]), Some((7, 0)));
    assert_eq!(of_nodes(&[root(2)]), Some((7, 0)));
    assert_eq!(of_nodes(&[root(1), end()]), None);
    assert_eq!(
        of_nodes(&[root(1), node(kind::MARKER_CLOSE, 0, 0, 0, 0)]),
        None
    );
    assert_eq!(of_nodes(&[root(1), text(0, 0)]), Some((7, 0)));
    assert_eq!(of_nodes(&[root(1), end(), end()]), Some((7, 0)));
    assert_eq!(of_nodes(&[root(2), end()]), Some((7, 1)));
    assert_eq!(of_nodes(&[root(3), open(2), end()]), None);
    assert_eq!(of_nodes(&[root(3), open(2), end(), end()]), None);
}

#[test]
fn the_roots_last_close_is_the_link_of_no_open() {
    assert_eq!(of_nodes(&[root(2), open(2), end()]), Some((7, 0)));
    // The open fails at node 2 as well, but the root's link is tried on the whole tape first.
    assert_eq!(of_nodes(&[root(3), open(3), end(), end()]), Some((7, 0)));
    // A Verse's link is no link to a close.
    let verse = node(kind::VERSE, 1, 0, 0, 2);
    assert_eq!(of_nodes(&[root(2), verse, end()]), None);
}

#[test]
fn closes_belong_to_the_innermost_open() {
    assert_eq!(of_nodes(&[root(5), open(4), open(3), end(), end()]), None);
    assert_eq!(
        of_nodes(&[root(5), open(3), open(4), end(), end()]),
        Some((7, 3))
    );
    assert_eq!(of_nodes(&[root(4), open(3), end(), end()]), Some((7, 2)));
    assert_eq!(of_nodes(&[root(4), end(), open(3), end()]), Some((7, 1)));
    assert_eq!(of_nodes(&[root(2), open(2)]), Some((7, 2)));
    assert_eq!(of_nodes(&[root(2), open(1)]), Some((7, 2)));
    assert_eq!(of_nodes(&[root(3), open(5), end()]), Some((7, 2)));
}

/// Opens that nest `depth` deep, each with its close.
fn deep(depth: u32) -> Vec<Node> {
    let last = 2 * depth + 1;
    let mut nodes = vec![root(last)];
    nodes.extend((1..=depth).map(|place| open(last - place)));
    nodes.extend((0..depth).map(|_| end()));
    nodes
}

#[test]
fn the_65th_open_inside_64_is_too_deep() {
    assert_eq!(of_nodes(&deep(64)), None);
    assert_eq!(of_nodes(&deep(65)), Some((8, 65)));
    assert_eq!(of_nodes(&deep(200)), Some((8, 65)));
}

#[test]
fn of_7_and_8_the_smaller_place_is_given() {
    let mut nodes = deep(65);
    nodes[0].link = 0;
    assert_eq!(of_nodes(&nodes), Some((7, 0)));
    let mut nodes = deep(65);
    nodes[70].kind = kind::TEXT;
    assert_eq!(of_nodes(&nodes), Some((8, 65)));
    let mut nodes = deep(65);
    nodes[7].kind = kind::BLOCK_END;
    assert_eq!(of_nodes(&nodes), Some((7, 7)));
}

// --- 9 ---

/// A Verse of this text under the one entry `v`.
fn of_verse(text: &str, marker: u16) -> Option<(u32, u64)> {
    let mut builder = Builder::default();
    builder.leaf(kind::VERSE, marker, text, 0);
    of(&builder.under(&[entry("v", 2, 0)]))
}

#[test]
fn a_glued_label_begins_between_characters() {
    assert_eq!(of_verse("\\é3", 0), Some((9, 1)));
    assert_eq!(of_verse("\\+é", 0), Some((9, 1)));
    assert_eq!(of_verse("é", 0), Some((9, 1)));
    assert_eq!(of_verse("\\vé", 0), None);
    assert_eq!(of_verse("\\x12", 0), None);
    assert_eq!(of_verse("\\é3", 1), None);
    assert_eq!(of_verse("\\\u{85}é", 0), None);
    assert_eq!(of_verse("\\|é", 0), None);
}

#[test]
fn number_9_is_about_every_chapter_and_verse_and_no_other_node() {
    let entries = [entry("v", 2, 0)];
    for (kind, expected) in [
        (kind::CHAPTER, Some((9, 2))),
        (kind::VERSE, Some((9, 2))),
        (kind::TEXT, None),
        (kind::ERROR, None),
    ] {
        let mut builder = Builder::default();
        builder.open(7, "\\zz").leaf(kind, 0, "\\é", 0).end();
        assert_eq!(of(&builder.under(&entries)), expected);
    }
    let mut builder = Builder::default();
    builder.open(0, "\\é").end();
    assert_eq!(of(&builder.under(&entries)), None);
}

// --- 10 and the order ---

#[test]
fn both_working_lists_have_an_entry_for_each_node() {
    let document = listing();
    assert_eq!(refusal(&document, 9, 9), None);
    assert_eq!(refusal(&document, 10, 1000), None);
    assert_eq!(refusal(&document, 8, 9), Some((10, 9)));
    assert_eq!(refusal(&document, 9, 8), Some((10, 9)));
    assert_eq!(refusal(&alone(), 0, 1), Some((10, 1)));
}

#[test]
fn numbers_are_tried_in_their_order() {
    let mut all = Document {
        table: b"x".to_vec(),
        source: vec![0xFF; LARGEST_SOURCE + 1],
        tape: vec![],
    };
    let mut given = vec![refusal(&all, 0, 0)];
    all.table = table_text(&[entry("v", 2, 0)]);
    given.push(refusal(&all, 0, 0));
    all.source = b"\\\xC3\xA93\xFF".to_vec();
    given.push(refusal(&all, 0, 0));
    all.source.pop();
    given.push(refusal(&all, 0, 0));
    let too_deep: Vec<Node> = (0..=65).map(|_| open(0)).collect();
    let mut nodes = [
        &[root(0), text(9, 9)],
        &too_deep[..],
        &[node(9, 0, 0, 0, 0)],
    ]
    .concat();
    all.set_nodes(&nodes);
    given.push(refusal(&all, 0, 0));
    nodes[67 + 1] = node(kind::VERSE, 0, 0, 4, 0);
    all.set_nodes(&nodes);
    given.push(refusal(&all, 0, 0));
    nodes[1] = text(0, 0);
    all.set_nodes(&nodes);
    given.push(refusal(&all, 0, 0));
    nodes[0] = root(69);
    all.set_nodes(&nodes);
    given.push(refusal(&all, 0, 0));
    all.set_nodes(&[root(2), nodes[68]]);
    given.push(refusal(&all, 0, 0));
    all.set_nodes(&[root(2), text(0, 4)]);
    given.push(refusal(&all, 0, 0));
    let expected = [
        (1, 0),
        (2, 0),
        (3, 4),
        (4, 0),
        (5, 68),
        (6, 1),
        (7, 0),
        (8, 66),
        (9, 1),
        (10, 2),
    ];
    assert_eq!(given, expected.map(Some));
}

#[test]
fn unread_fields_refuse_nothing() {
    let mut document = listing();
    for place in [2, 3, 7, 8] {
        let mut node = document.node(place);
        node.flags = 255;
        node.marker = 65_535;
        node.link = u32::MAX;
        document.set_node(place, node);
    }
    let verse = document.node(6);
    document.set_node(6, Node { link: 77, ..verse });
    assert_eq!(of(&document), None);
}

// --- what else stands in this module ---

#[test]
fn names_stop_where_document_01_says() {
    for (text, name) in [
        ("\\v 2", "v"),
        ("\\+nd*", "nd"),
        ("\\\\v", ""),
        ("\\++v", "+v"),
        ("+v\\", "v"),
        ("v|x", "v"),
        ("\\v\u{3000}2", "v"),
        ("\\v\u{200B}2", "v\u{200B}2"),
        ("", ""),
    ] {
        assert_eq!(marker_name(text), name);
    }
}

#[test]
fn the_list_of_blanks_is_the_one_of_the_standard_library() {
    for c in '\0'..=char::MAX {
        assert_eq!(is_blank(c), c.is_whitespace(), "{c:?}");
    }
}

#[test]
fn verses_below_a_marker_without_an_entry_are_not_visited() {
    let mut builder = Builder::default();
    builder.leaf(kind::VERSE, 0, "\\v 1", 1);
    builder
        .open(0, "\\v")
        .leaf(kind::VERSE, 9, "\\v 2", 2)
        .end();
    builder.open(1, "\\zz").open(0, "\\v");
    builder.leaf(kind::VERSE, 0, "\\v 3", 3).end().end();
    builder.leaf(kind::VERSE, 0, "\\v 4", 4);
    assert_eq!(verses_visited(&builder.under(&[entry("v", 2, 0)])), 3);
    assert_eq!(verses_visited(&listing()), 1);
}
