//! A test for each sentence of document 02's K5 and of its readings.

use super::*;
use crate::document::{Document, table_text};
use crate::examples::examples;
use crate::listing::listing as printed_listing;
use crate::parts::{lookup, parse_verse_part};
use crate::refusals::{LARGEST_SOURCE, MOST_MARKERS};
use crate::samples::{entry, listing, node};

const TABLE: [Entry<'static>; 12] = [
    entry("id", 0, 1),
    entry("c", 1, 0),
    entry("v", 2, 0),
    entry("p", 3, 2),
    entry("q", 3, 2),
    entry("nd", 4, 0),
    entry("w", 4, 0),
    entry("tc", 4, 0),
    entry("f", 5, 1),
    entry("qt-s", 6, 0),
    entry("ts", 6, 0),
    entry("esb", 7, 1),
];
const ID: u16 = 0;
const C: u16 = 1;
const V: u16 = 2;
const P: u16 = 3;
const Q: u16 = 4;
const ND: u16 = 5;
const W: u16 = 6;
const TC: u16 = 7;
const F: u16 = 8;
const QT: u16 = 9;

/// More room than any text here needs.
const ENOUGH: usize = 1_000;

fn under(entries: &[Entry<'_>], text: &str) -> Result<Vec<Node>, Refused> {
    read(&table_text(entries), text.as_bytes(), ENOUGH)
}

/// Text and the number that turns it back with its place.
fn refused(number: u32, texts: &[(&str, u64)]) {
    for &(text, place) in texts {
        assert_eq!(under(&TABLE, text), Err((number, place)), "{text:?}");
    }
}

/// The nodes after the root; the root is as it is of every text.
fn nodes_under(entries: &[Entry<'_>], text: &str) -> Vec<Node> {
    let nodes = under(entries, text).unwrap_or_else(|refused| panic!("{text:?}: {refused:?}"));
    let root = node(kind::ROOT, 0, 0, text.len() as u32, nodes.len() as u32);
    assert_eq!(nodes[0], root, "{text:?}");
    nodes[1..].to_vec()
}

fn has(text: &str, expected: &[Node]) {
    assert_eq!(nodes_under(&TABLE, text), expected, "{text:?}");
}

fn open(marker: u16, start: u32, len: u32, link: u32) -> Node {
    node(kind::MARKER_OPEN, marker, start, len, link)
}

fn close(marker: u16, start: u32, len: u32) -> Node {
    node(kind::MARKER_CLOSE, marker, start, len, 0)
}

fn end(marker: u16, start: u32) -> Node {
    node(kind::BLOCK_END, marker, start, 0, 0)
}

fn text(start: u32, len: u32) -> Node {
    node(kind::TEXT, 0, start, len, 0)
}

fn attribute(start: u32, len: u32) -> Node {
    node(kind::ATTRIBUTE, 0, start, len, 0)
}

fn chapter(start: u32, len: u32, link: u32) -> Node {
    node(kind::CHAPTER, C, start, len, link)
}

fn verse(start: u32, len: u32, link: u32) -> Node {
    node(kind::VERSE, V, start, len, link)
}

#[test]
fn the_source_of_the_listing_has_11_nodes() {
    let Document { table, source, .. } = listing();
    let expected = [
        node(kind::ROOT, 0, 0, 25, 11),
        open(0, 0, 3, 3),
        text(3, 5),
        end(0, 8),
        node(kind::CHAPTER, 1, 8, 4, 1),
        text(12, 1),
        open(3, 13, 2, 10),
        text(15, 1),
        node(kind::VERSE, 2, 16, 4, 2),
        text(20, 5),
        end(3, 25),
    ];
    assert_eq!(read(&table, &source, 11).unwrap(), expected);
}

#[test]
fn the_listing_of_these_nodes_is_that_of_the_example() {
    let mut document = listing();
    let nodes = read(&document.table, &document.source, 11).unwrap();
    document.set_nodes(&nodes);
    assert_ne!(document, listing());
    assert_eq!(printed_listing(&document), printed_listing(&listing()));
}

#[test]
fn the_empty_text_is_one_node() {
    assert_eq!(under(&TABLE, ""), Ok(vec![node(kind::ROOT, 0, 0, 0, 1)]));
    assert_eq!(under(&[], ""), Ok(vec![node(kind::ROOT, 0, 0, 0, 1)]));
}

// --- names ---

#[test]
fn every_backslash_begins_a_marker_or_a_close_also_inside_attributes_and_number_words() {
    refused(16, &[("\\w a|b=\"\\\"\"\\w*", 8), ("\\v 1\\2 ", 4)]);
    has(
        "\\w |a\\v1\\w*",
        &[
            open(W, 0, 2, 5),
            text(2, 1),
            attribute(3, 2),
            verse(5, 3, 1),
            close(W, 8, 3),
        ],
    );
    has("\\v 1\\v 2", &[verse(0, 4, 1), verse(4, 4, 2)]);
}

#[test]
fn a_name_is_up_to_a_blank_a_star_a_bar_a_backslash_or_the_end() {
    has("\\p a", &[open(P, 0, 2, 3), text(2, 2), end(P, 4)]);
    has("\\p|a", &[open(P, 0, 2, 3), text(2, 2), end(P, 4)]);
    has("\\p", &[open(P, 0, 2, 2), end(P, 2)]);
    has("\\p\u{85}", &[open(P, 0, 2, 3), text(2, 2), end(P, 4)]);
    has(
        "\\nd\\nd\\nd*\\nd*",
        &[
            open(ND, 0, 3, 4),
            open(ND, 3, 3, 3),
            close(ND, 6, 4),
            close(ND, 10, 4),
        ],
    );
    refused(16, &[("\\p\u{200B}", 0), ("\\p+", 0), ("\\p,", 0)]);
}

#[test]
fn one_plus_is_no_part_of_the_name_and_belongs_to_the_node() {
    has(
        "\\+nd a\\+nd*",
        &[open(ND, 0, 4, 3), text(4, 2), close(ND, 6, 5)],
    );
    has(
        "\\+p\\+v 3\\+c 2",
        &[
            open(P, 0, 3, 3),
            verse(3, 5, 3),
            end(P, 8),
            chapter(8, 5, 2),
        ],
    );
    has("\\+qt-s\\*", &[open(QT, 0, 6, 2), close(QT, 6, 2)]);
    refused(16, &[("\\++nd a\\++nd*", 0), ("\\++", 0)]);
}

#[test]
fn an_empty_name_is_an_unknown_marker() {
    refused(
        16,
        &[
            ("\\", 0),
            ("a\\", 1),
            ("\\ p", 0),
            ("\\\u{3000}p", 0),
            ("\\|p", 0),
            ("\\\\p", 0),
            ("\\+", 0),
            ("\\+ p", 0),
            ("\\+|p", 0),
            ("\\+\\p", 0),
            ("\\+*", 0),
        ],
    );
}

#[test]
fn markers_are_found_by_lookup() {
    let entries = [
        entry("q", 4, 0),
        entry("q", 3, 2),
        entry("q1", 3, 2),
        entry("c", 3, 2),
        entry("v", 4, 0),
        entry("v1a", 3, 2),
    ];
    // The first equal name, an exact one before one with a level, then `v` or `c` before a digit.
    for (written, marker) in [
        ("q", 0),
        ("q1", 2),
        ("q2", 0),
        ("q1-2", 0),
        ("q12", 0),
        ("c1", 3),
        ("c2a", 3),
        ("v9z9", 4),
        ("v1-x", 4),
        ("v1a", 5),
        ("v1a2", 5),
        ("v1ab", 4),
    ] {
        let text = format!("\\{written} ");
        let is_block = CATEGORIES[entries[marker as usize].category] == "paragraph";
        let whole = match is_block {
            true => text,
            false => format!("{text}\\{written}*"),
        };
        assert_eq!(nodes_under(&entries, &whole)[0].marker, marker, "{written}");
    }
    for unknown in ["Q", "qa", "q-", "q-1x", "va", "x1", "1", "-1", "c\u{661}"] {
        assert_eq!(under(&entries, &format!("\\{unknown} ")), Err((16, 0)));
    }
}

#[test]
fn lookup_and_leading_numbers_are_the_published_ones() {
    let tables: [&[Entry<'_>]; 3] = [
        &TABLE,
        &[
            entry("v1", 2, 0),
            entry("v", 1, 0),
            entry("a-1", 4, 0),
            entry("a", 4, 0),
            entry("1", 4, 0),
            entry("-", 4, 0),
            entry("-1", 4, 0),
            entry("v1a", 2, 0),
            entry("v", 2, 0),
        ],
        &[],
    ];
    let letters = ["v", "c", "a", "q", "1", "0", "-", "é", "4294967296"];
    let mut names = vec![String::new()];
    for _ in 0..4 {
        let longer: Vec<String> = names
            .iter()
            .flat_map(|name| letters.map(|letter| format!("{name}{letter}")))
            .collect();
        names.extend(longer);
    }
    names.sort();
    names.dedup();
    for entries in tables {
        let table = table_text(entries);
        let reader = Reader::new(entries, "");
        for name in &names {
            assert_eq!(reader.lookup(name), lookup(&table, name), "{name}");
        }
    }
    for label in &names {
        let published = parse_verse_part(label).map_or(0, |(number, _)| number);
        assert_eq!(leading_number(label), published, "{label}");
    }
}

// --- runs ---

#[test]
fn with_no_character_or_note_open_a_run_is_one_text_over_all_of_it_bar_included() {
    has("a|b|c", &[text(0, 5)]);
    has("|", &[text(0, 1)]);
    has("\\p a|b", &[open(P, 0, 2, 3), text(2, 4), end(P, 6)]);
    has("\\v 1 |a", &[verse(0, 4, 1), text(4, 3)]);
    has(
        "\\nd\\nd*|a",
        &[open(ND, 0, 3, 2), close(ND, 3, 4), text(7, 2)],
    );
    has(
        "\\qt-s\\*|a",
        &[open(QT, 0, 5, 2), close(QT, 5, 2), text(7, 2)],
    );
}

#[test]
fn otherwise_text_up_to_the_first_bar_if_nonempty_and_an_attribute_from_it_to_the_runs_end() {
    has(
        "\\w a|b|c d\\w*",
        &[
            open(W, 0, 2, 4),
            text(2, 2),
            attribute(4, 6),
            close(W, 10, 3),
        ],
    );
    has(
        "\\w|\\w*",
        &[open(W, 0, 2, 3), attribute(2, 1), close(W, 3, 3)],
    );
    has("\\w a\\w*", &[open(W, 0, 2, 3), text(2, 2), close(W, 4, 3)]);
    has(
        "\\f |a\\f*",
        &[
            open(F, 0, 2, 4),
            text(2, 1),
            attribute(3, 2),
            close(F, 5, 3),
        ],
    );
    // Inside one open the run behind another's close has its own first bar.
    has(
        "\\w |a\\nd\\nd*|b\\w*",
        &[
            open(W, 0, 2, 7),
            text(2, 1),
            attribute(3, 2),
            open(ND, 5, 3, 5),
            close(ND, 8, 4),
            attribute(12, 2),
            close(W, 14, 3),
        ],
    );
}

#[test]
fn blank_runs_are_text_like_all_others() {
    has(" \n", &[text(0, 2)]);
    has("\\p\n", &[open(P, 0, 2, 3), text(2, 1), end(P, 3)]);
    has("\\p\r\n", &[open(P, 0, 2, 3), text(2, 2), end(P, 4)]);
    has(
        "\\w\u{3000}\\w*",
        &[open(W, 0, 2, 3), text(2, 3), close(W, 5, 3)],
    );
    has("\u{FEFF}", &[text(0, 3)]);
}

// --- closes ---

#[test]
fn a_lone_star_that_no_milestone_has_taken_is_17_there() {
    refused(
        17,
        &[
            ("\\*", 0),
            ("\\p \\*", 3),
            ("\\w a\\*", 4),
            ("\\qt-s\\*\\*", 7),
            ("\\p\\*\\zz", 2),
        ],
    );
}

#[test]
fn unknown_or_category_other_also_with_a_star_behind_it_is_16() {
    refused(
        16,
        &[
            ("\\zz", 0),
            ("\\zz*", 0),
            ("\\w a\\zz*", 4),
            ("\\esb", 0),
            ("\\esb*", 0),
            ("\\esb1 ", 0),
            ("\\p \\esb*", 3),
        ],
    );
}

#[test]
fn a_close_needs_the_innermost_open_to_have_the_same_written_name() {
    has(
        "\\w\\nd\\nd*\\w*",
        &[
            open(W, 0, 2, 4),
            open(ND, 2, 3, 3),
            close(ND, 5, 4),
            close(W, 9, 3),
        ],
    );
    refused(
        17,
        &[
            ("\\w*", 0),
            ("\\p \\w*", 3),
            ("\\w\\nd\\w*\\nd*", 5),
            ("\\w\\w*\\w*", 5),
            ("\\f\\w*", 2),
        ],
    );
}

#[test]
fn a_plus_isnt_compared_a_level_is() {
    has("\\+w\\w*", &[open(W, 0, 3, 2), close(W, 3, 3)]);
    has("\\w\\+w*", &[open(W, 0, 2, 2), close(W, 2, 4)]);
    has("\\tc1\\tc1*", &[open(TC, 0, 4, 2), close(TC, 4, 5)]);
    refused(
        17,
        &[
            ("\\tc1\\tc*", 4),
            ("\\tc\\tc1*", 3),
            ("\\tc1\\tc2*", 4),
            ("\\tc1-2\\tc1*", 6),
        ],
    );
}

#[test]
fn otherwise_17_there_for_every_category() {
    refused(
        17,
        &[
            ("\\p*", 0),
            ("\\p a\\p*", 4),
            ("\\id*", 0),
            ("\\c*", 0),
            ("\\v*", 0),
            ("\\v1*", 0),
            ("\\c 1\\c1*", 4),
            ("\\nd*", 0),
            ("\\f*", 0),
            ("\\qt-s*", 0),
            ("\\qt-s\\*\\qt-s*", 7),
        ],
    );
}

// --- blocks, chapters, verses ---

#[test]
fn the_next_block_marker_a_chapter_or_the_end_closes_a_block() {
    has(
        "\\id GEN\\p\\q1 a\\c 1\\p",
        &[
            open(ID, 0, 3, 3),
            text(3, 4),
            end(ID, 7),
            open(P, 7, 2, 5),
            end(P, 9),
            open(Q, 9, 3, 8),
            text(12, 2),
            end(Q, 14),
            chapter(14, 4, 1),
            open(P, 18, 2, 11),
            end(P, 20),
        ],
    );
    has("\\p\\v 1", &[open(P, 0, 2, 3), verse(2, 4, 1), end(P, 6)]);
    has(
        "\\p\\id",
        &[open(P, 0, 2, 2), end(P, 2), open(ID, 2, 3, 4), end(ID, 5)],
    );
    has(
        "\\c 1\\c 2 a",
        &[chapter(0, 4, 1), chapter(4, 4, 2), text(8, 2)],
    );
}

#[test]
fn a_block_marker_a_chapter_or_the_texts_end_with_a_character_or_note_open_is_17() {
    refused(
        17,
        &[
            ("\\w a\\p", 4),
            ("\\p\\f a\\p", 6),
            ("\\w a\\id", 4),
            ("\\w a\\c 1", 4),
            ("\\w a\\c1", 4),
            ("\\w a", 4),
            ("\\p \\f a\n", 8),
            ("\\w\\nd\\nd*", 9),
            ("\\w é", 5),
        ],
    );
}

#[test]
fn a_verse_is_allowed_anywhere_in_characters_and_notes_too() {
    has("\\v 1", &[verse(0, 4, 1)]);
    has(
        "\\p\\w\\v 1\\w*\\f\\v2\\f*",
        &[
            open(P, 0, 2, 8),
            open(W, 2, 2, 4),
            verse(4, 4, 1),
            close(W, 8, 3),
            open(F, 11, 2, 7),
            verse(13, 3, 2),
            close(F, 16, 3),
            end(P, 19),
        ],
    );
}

#[test]
fn no_block_is_needed_around_characters_and_notes() {
    has("\\w\\w*", &[open(W, 0, 2, 2), close(W, 2, 3)]);
    has("\\f\\f*", &[open(F, 0, 2, 2), close(F, 2, 3)]);
    has(
        "\\c 1\\w\\w*",
        &[chapter(0, 4, 1), open(W, 4, 2, 3), close(W, 6, 3)],
    );
}

// --- milestones ---

#[test]
fn a_milestone_closes_directly_behind_its_name_or_behind_attributes() {
    has("\\qt-s\\*", &[open(QT, 0, 5, 2), close(QT, 5, 2)]);
    has(
        "\\qt-s|a\\*",
        &[open(QT, 0, 5, 3), attribute(5, 2), close(QT, 7, 2)],
    );
    has(
        "\\qt-s \n|a |b \\*c",
        &[
            open(QT, 0, 5, 4),
            text(5, 2),
            attribute(7, 6),
            close(QT, 13, 2),
            text(15, 1),
        ],
    );
    has(
        "\\qt-s\u{2003}\u{85}|\\*",
        &[
            open(QT, 0, 5, 4),
            text(5, 5),
            attribute(10, 1),
            close(QT, 11, 2),
        ],
    );
    has(
        "\\ts1|\\*",
        &[open(10, 0, 4, 3), attribute(4, 1), close(10, 5, 2)],
    );
    // It is no open character: a block marker may follow, and a bar behind it is that of the open around it.
    has(
        "\\w\\qt-s\\*|a\\w*\\p",
        &[
            open(W, 0, 2, 5),
            open(QT, 2, 5, 3),
            close(QT, 7, 2),
            attribute(9, 2),
            close(W, 11, 3),
            open(P, 14, 2, 7),
            end(P, 16),
        ],
    );
}

#[test]
fn anything_else_behind_a_milestone_is_17_at_its_own_backslash() {
    refused(
        17,
        &[
            ("a\\qt-s", 1),
            ("\\qt-s ", 0),
            ("\\qt-s \\*", 0),
            ("\\qt-s a\\*", 0),
            ("\\qt-s a|b\\*", 0),
            ("\\qt-s\u{2003}é|b\\*", 0),
            ("\\qt-s|a", 0),
            ("\\qt-s |a\\", 0),
            ("\\qt-s|a\\p\\*", 0),
            ("\\qt-s|a\\zz", 0),
            ("\\qt-s\\+*", 0),
            ("\\qt-s\\\\*", 0),
            ("\\qt-s\\qt-s\\*", 0),
            ("\\w \\qt-s", 3),
        ],
    );
    refused(16, &[("\\qt-sé|b\\*", 0)]);
}

// --- number nodes ---

#[test]
fn a_number_node_has_the_blanks_and_where_there_are_any_the_word() {
    has("\\v 12 a", &[verse(0, 5, 12), text(5, 2)]);
    has("\\c\n\n3\n", &[chapter(0, 5, 3), text(5, 1)]);
    has("\\c 1\r\n", &[chapter(0, 4, 1), text(4, 2)]);
    has("\\v\u{3000}\u{85}7\u{A0}b", &[verse(0, 8, 7), text(8, 3)]);
    has("\\v word", &[verse(0, 7, 0)]);
    has("\\v \u{200B}5", &[verse(0, 7, 0)]);
    has("\\v 1-3b\\v 4", &[verse(0, 7, 1), verse(7, 4, 4)]);
}

#[test]
fn a_number_word_may_be_empty() {
    has("\\v", &[verse(0, 2, 0)]);
    has("\\v ", &[verse(0, 3, 0)]);
    has("\\v  \\c", &[verse(0, 4, 0), chapter(4, 2, 0)]);
}

#[test]
fn without_blanks_there_is_no_number_word() {
    has("\\v|1 a", &[verse(0, 2, 0), text(2, 4)]);
    has("\\v\\v", &[verse(0, 2, 0), verse(2, 2, 0)]);
}

#[test]
fn a_number_word_may_hold_bars_and_stars() {
    has("\\v 1|a*b c", &[verse(0, 8, 1), text(8, 2)]);
    has("\\v *", &[verse(0, 4, 0)]);
    has("\\v |1", &[verse(0, 5, 0)]);
    has(
        "\\w\\v 1|a b|c\\w*",
        &[
            open(W, 0, 2, 5),
            verse(2, 6, 1),
            text(8, 2),
            attribute(10, 2),
            close(W, 12, 3),
        ],
    );
}

#[test]
fn a_glued_number_ends_with_its_name() {
    has("\\v12 3", &[verse(0, 4, 12), text(4, 2)]);
    has("\\c2\n3", &[chapter(0, 3, 2), text(3, 2)]);
    has("\\v3b-4 a", &[verse(0, 6, 3), text(6, 2)]);
    has("\\v1é|", &[verse(0, 5, 1), text(5, 1)]);
    has("\\v2-3", &[verse(0, 5, 2)]);
    let entries = [entry("verse", 2, 0), entry("v1", 2, 0)];
    assert_eq!(
        nodes_under(&entries, "\\verse7 8"),
        [node(kind::VERSE, 0, 0, 7, 7), text(7, 2)]
    );
    assert_eq!(
        nodes_under(&entries, "\\v1 8"),
        [node(kind::VERSE, 1, 0, 5, 8)]
    );
}

#[test]
fn the_link_is_the_labels_leading_number_or_0_if_none_can_be_read() {
    for (label, number) in [
        ("4294967295", u32::MAX),
        ("4294967296", 0),
        ("99999999999999999999999", 0),
        ("000000000000000000007", 7),
        ("7a", 7),
        ("7A-9", 7),
        ("-7", 0),
        ("+7", 0),
        ("a7", 0),
        ("٣", 0),
        ("7٣", 7),
        ("0", 0),
    ] {
        let text = format!("\\v {label}");
        has(&text, &[verse(0, text.len() as u32, number)]);
        let text = format!("\\v{label}");
        match label.as_bytes()[0].is_ascii_digit() {
            true => has(&text, &[verse(0, text.len() as u32, number)]),
            false => refused(16, &[(&text, 0)]),
        }
    }
}

// --- refusals in their order ---

#[test]
fn of_16_and_17_the_earlier_place_at_one_place_16() {
    refused(16, &[("\\zz\\*", 0), ("\\w\\zz", 2), ("\\p\\zz*\\p*", 2)]);
    refused(17, &[("\\*\\zz", 0), ("\\qt-s\\zz", 0), ("\\p*\\zz", 0)]);
}

#[test]
fn eighteen_has_the_whole_count_the_root_included() {
    let (table, text) = (table_text(&TABLE), b"\\p a\\w\\w*");
    for room in 0..6 {
        assert_eq!(read(&table, text, room), Err((18, 6)));
    }
    for room in [6, 7, usize::MAX] {
        assert_eq!(read(&table, text, room).unwrap().len(), 6);
    }
    assert_eq!(read(&table, b"", 0), Err((18, 1)));
}

#[test]
fn a_text_with_a_fault_is_never_18() {
    let table = table_text(&TABLE);
    assert_eq!(read(&table, b"\\p a\\zz", 0), Err((16, 4)));
    assert_eq!(read(&table, b"\\p a\\w", 0), Err((17, 6)));
}

#[test]
fn one_two_and_three_come_before() {
    let (table, bad) = (table_text(&TABLE), b"name=id\ncategory=x\n");
    let mut long = b"\\zz".repeat(LARGEST_SOURCE / 3 + 1);
    long.truncate(LARGEST_SOURCE + 1);
    *long.last_mut().unwrap() = 0xFF;
    assert_eq!(read(bad, &long, 0), Err((1, 8)));
    assert_eq!(read(&table, &long, 0), Err((2, 0)));
    long.pop();
    assert_eq!(read(&table, &long, 0), Err((16, 0)));
    assert_eq!(read(&table, b"\\zz\\*\xE9", 0), Err((3, 5)));
    let many = table_text(&vec![entry("p", 3, 2); MOST_MARKERS + 1]);
    assert!(matches!(read(&many, b"", 1), Err((1, _))));
}

// --- read-exercise ---

#[test]
fn read_exercise_prints_nodes_or_a_refusal() {
    let Document { table, source, .. } = listing();
    let nodes = read(&table, &source, 11).unwrap();
    let mut document = Document::default();
    document.set_nodes(&nodes);
    assert_eq!(printed(&table, &source), document.tape);
    assert_eq!(
        printed(&table, b"\\p\\zz"),
        b"verdict=refused\nrefusal=16\nplace=2\n"
    );
}

#[test]
fn read_exercise_prints_16_and_17_of_an_example() {
    for (number, place) in [(16, 28), (17, 52)] {
        let mut all = examples().into_iter();
        let name = format!("refused-{number}");
        let (_, document) = all.find(|(its, _)| *its == name).unwrap();
        let expected = format!("verdict=refused\nrefusal={number}\nplace={place}\n");
        let printed = printed(&document.table, &document.source);
        assert_eq!(printed, expected.into_bytes());
    }
}

#[test]
fn read_exercise_has_room_for_the_largest_files() {
    let table = table_text(&TABLE);
    let mut text = b"\\p".repeat(LARGEST_FILE / 2);
    assert_eq!(printed(&table, &text).len(), (LARGEST_FILE + 1) * 16);
    text.push(b' ');
    assert_eq!(printed(&table, &text), b"verdict=toolarge\n");
    let large = b"name=p\ncategory=paragraph\nrole=content\n".repeat(LARGEST_FILE);
    assert_eq!(printed(&large, b""), b"verdict=toolarge\n");
}
