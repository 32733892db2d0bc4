use super::*;
use crate::document::kind;
use crate::refusals::refusal;
use crate::samples::{Builder, entry, listing};

const ID: u16 = 0;
const C: u16 = 1;
const V: u16 = 2;
const P: u16 = 3;
const W: u16 = 4;
const TR: u16 = 5;
const TC: u16 = 6;
const CA: u16 = 7;
const B: u16 = 8;
const QT: u16 = 9;
const FR: u16 = 10;
const PAST: u16 = 11;

/// What the published code gives for a builder's document.
fn validated(builder: &mut Builder) -> Validated {
    let entries = [
        entry("id", 0, 1),
        entry("c", 1, 0),
        entry("v", 2, 0),
        entry("p", 3, 2),
        entry("w", 4, 0),
        entry("tr", 7, 0),
        entry("tc", 4, 0),
        entry("ca", 4, 1),
        entry("b", 3, 1),
        entry("qt-s", 6, 0),
        entry("fr", 4, 0),
    ];
    let document = builder.under(&entries);
    let n = document.node_count();
    assert_eq!(refusal(&document, n, n), None);
    validate(&document)
}

fn found(builder: &mut Builder) -> Vec<Found> {
    match validated(builder) {
        Validated::Findings(list) => list,
        Validated::Overflowed => panic!("a sum left 32 bits"),
    }
}

/// The findings of a builder's document as code and message.
fn findings(builder: &mut Builder) -> Vec<(u32, String)> {
    let list = found(builder);
    list.into_iter().map(|f| (f.code, f.message)).collect()
}

fn messages(builder: &mut Builder) -> Vec<String> {
    found(builder).into_iter().map(|f| f.message).collect()
}

fn codes(builder: &mut Builder) -> Vec<u32> {
    findings(builder)
        .into_iter()
        .map(|(code, _)| code)
        .collect()
}

/// A builder that begins with what nearly every text has, so that nothing is missing.
fn begun() -> Builder {
    let mut builder = Builder::default();
    builder.open(ID, "\\id").text(" GEN\n").end();
    builder.leaf(kind::CHAPTER, C, "\\c 1\n", 1);
    builder
}

/// The same with verses of these texts in a paragraph.
fn with_verses(texts: &[&str]) -> Builder {
    let mut builder = begun();
    builder.open(P, "\\p");
    for text in texts {
        builder.leaf(kind::VERSE, V, text, 0);
    }
    builder
}

fn verses(texts: &[&str]) -> Vec<(u32, String)> {
    findings(&mut with_verses(texts))
}

/// A `\w` with this attribute list.
fn attributes(list: &str) -> Vec<(u32, String)> {
    let mut builder = begun();
    builder.open(W, "\\w").text(" word");
    builder.leaf(kind::ATTRIBUTE, 0, list, 0);
    findings(&mut builder)
}

#[test]
fn the_listing_example_has_its_one_finding() {
    let expected = Found {
        severity: 1,
        code: 11,
        start: 16,
        len: 5,
        message: "expected verse 1 but found 2".to_string(),
    };
    assert_eq!(validate(&listing()), Validated::Findings(vec![expected]));
}

#[test]
fn the_root_alone_has_no_finding() {
    assert_eq!(codes(&mut Builder::default()), []);
}

#[test]
fn trial_item_11_a_value_without_a_key() {
    assert_eq!(attributes("|=\"x\""), []);
}

#[test]
fn trial_item_12_an_empty_value() {
    let message = "attribute has an empty value (e.g. `lemma=\"\"`)";
    assert_eq!(attributes("|lemma=\"\""), [(17, message.to_string())]);
}

#[test]
fn trial_items_1_to_8_in_whole_documents() {
    let wrong = |message: &str| vec![(11, message.to_string())];
    assert_eq!(verses(&["\\v 1-9", "\\v 9a"]), []);
    assert_eq!(
        verses(&["\\v 1-9", "\\v 9"]),
        wrong("expected verse 10 but found 9")
    );
    assert_eq!(verses(&["\\v 1-9a", "\\v 10"]), []);
    assert_eq!(
        verses(&["\\v 1-9a", "\\v 9"]),
        wrong("expected verse 9b but found 9")
    );
    assert_eq!(verses(&["\\v 1-9", "\\v 10a"]), []);
    assert_eq!(verses(&["\\v 1-5", "\\v 6"]), []);
    assert_eq!(verses(&["\\v 1-", "\\v 2"]), []);
    assert_eq!(
        verses(&["\\v 1-9z", "\\v 9z"]),
        wrong("expected verse 9{ but found 9z")
    );
}

#[test]
fn trial_item_16_a_number_that_is_not_read_leaves_the_expected_verse() {
    assert_eq!(verses(&["\\v 4294967296", "\\v 1"]), []);
    assert_eq!(verses(&["\\v abc", "\\v 1"]), []);
    assert_eq!(
        verses(&["\\v 1-4294967294", "\\v 4294967295a"]),
        [],
        "the largest number is read"
    );
}

#[test]
fn trial_item_17_a_zero_width_space_is_no_blank() {
    assert_eq!(verses(&["\\v\u{2003}1"]), []);
    let message = "\\v\u{200B}1 needs a space before its number; read as \\v \u{200B}1";
    assert_eq!(verses(&["\\v\u{200B}1"]), [(34, message.to_string())]);
}

#[test]
fn a_sum_past_32_bits_is_noticed() {
    assert!(overflow_is_noticed());
    let mut chapter = begun();
    chapter.leaf(kind::CHAPTER, C, "\\c 2", u32::MAX);
    let mut row = begun();
    row.open(TR, "\\tr").open(TC, "\\tc4294967295");
    for mut builder in [
        with_verses(&["\\v 1-4294967295"]),
        with_verses(&["\\v 1-4294967295a", "\\v 5"]),
        with_verses(&["\\v 1", "\\v 4294967295a"]),
        chapter,
        row,
    ] {
        assert_eq!(validated(&mut builder), Validated::Overflowed);
    }
}

#[test]
fn another_panic_is_an_error_with_the_document() {
    let mut document = listing();
    let text = document.node(2);
    document.set_node(2, Node { start: 99, ..text });
    let why = try_validate(&document).unwrap_err();
    assert!(why.contains("panicked") && why.contains("source=5c6964"));
}

// --- readings of document 01 that the published code settles ---

#[test]
fn a_marker_without_an_entry_is_not_visited() {
    let mut builder = begun();
    builder.open(PAST, "\\zz");
    builder.leaf(kind::VERSE, V, "\\v 9", 9);
    builder.open(QT, "\\qt-e").end();
    assert_eq!(codes(&mut builder), []);
}

#[test]
fn a_cell_without_an_entry_counts_in_its_row() {
    let mut builder = begun();
    builder.open(TR, "\\tr").open(PAST, "\\tc1").end();
    builder.open(TC, "\\tc3").end();
    let message = "expected table column 2 but found column 3";
    assert_eq!(findings(&mut builder), [(27, message.to_string())]);
}

#[test]
fn a_cell_without_columns_keeps_the_expected_column() {
    let mut builder = begun();
    builder.open(TR, "\\tr").open(TC, "\\tc1-2").end();
    builder.open(TC, "\\tc").end().open(TC, "\\tc3").end();
    assert_eq!(codes(&mut builder), []);
}

#[test]
fn a_number_without_an_entry_fills_its_slot() {
    let mut builder = begun();
    builder.open(PAST, "\\ca").end().open(CA, "\\ca").end();
    assert_eq!(codes(&mut builder), [33]);
}

#[test]
fn numbers_at_one_byte_are_attached_together() {
    let mut builder = begun();
    builder.open(CA, "\\ca").end().open(CA, "\\ca").end();
    assert_eq!(codes(&mut builder), [33]);
    let first = builder.nodes.iter().position(|node| node.marker == CA);
    let start = builder.nodes[first.unwrap()].start;
    let last = builder.nodes.iter().rposition(|node| node.marker == CA);
    builder.nodes[last.unwrap()].start = start;
    assert_eq!(codes(&mut builder), []);
}

#[test]
fn a_number_with_markup_ends_the_run() {
    let mut builder = begun();
    builder.open(CA, "\\ca").open(PAST, "\\zz").end().end();
    builder.open(CA, "\\cp").end();
    assert_eq!(codes(&mut builder), [33]);
}

#[test]
fn a_blank_between_anchor_and_number_is_skipped_and_a_paragraph_is_not() {
    let mut builder = begun();
    builder.text("\u{2028}").open(CA, "\\ca").end();
    assert_eq!(codes(&mut builder), []);
    let mut builder = begun();
    builder.open(P, "\\p").end().open(CA, "\\ca").end();
    assert_eq!(codes(&mut builder), [33]);
}

#[test]
fn markup_without_an_entry_is_content() {
    let mut blank_line = begun();
    blank_line.open(B, "\\b").open(PAST, "\\zz");
    assert_eq!(codes(&mut blank_line), [14]);
    let mut word = begun();
    word.open(W, "\\w").open(PAST, "\\zz");
    assert_eq!(codes(&mut word), []);
}

#[test]
fn a_verse_without_an_entry_is_visited() {
    let mut builder = begun();
    builder.leaf(kind::VERSE, PAST, "\\v12 2", 0);
    let message = "expected verse 1 but found 2";
    let list = findings(&mut builder);
    assert_eq!(list[0].0, 12);
    assert_eq!(list[1..], [(11, message.to_string())]);
}

#[test]
fn a_longer_name_is_glued_by_its_length_alone() {
    let message = "\\x12 needs a space before its number; read as \\x 12";
    let list = verses(&["\\v 1-11", "\\x12"]);
    assert_eq!(list, [(34, message.to_string())]);
}

#[test]
fn names_come_from_the_table_or_from_the_source() {
    let mut note_only = begun();
    note_only.open(FR, "\\other").end();
    let message = "\\fr is only valid inside a note";
    assert_eq!(findings(&mut note_only), [(13, message.to_string())]);
    let mut number = begun();
    number.open(CA, "\\vp").end();
    let message =
        "\\vp must directly follow its \\v (at most once per verse); it is kept as character text";
    assert_eq!(findings(&mut number), [(33, message.to_string())]);
    let mut start = begun();
    start.open(QT, "\\x1-e").end();
    let message = "milestone \\x1-e has no matching \\x1-s";
    assert_eq!(findings(&mut start), [(16, message.to_string())]);
}

#[test]
fn a_blank_first_text_means_no_book_code() {
    let mut builder = Builder::default();
    builder.open(ID, "\\id").text(" \n").text("XYZ").end();
    builder.leaf(kind::CHAPTER, C, "\\c 1\n", 1);
    assert_eq!(codes(&mut builder), []);
}

#[test]
fn without_a_book_code_the_front_matter_flag_stays() {
    let mut builder = Builder::default();
    builder.open(ID, "\\id").text(" FRT").end();
    builder.open(ID, "\\id").end().open(P, "\\p").end();
    assert_eq!(codes(&mut builder), [6]);
    let mut builder = Builder::default();
    builder.open(ID, "\\id").text(" FRT").end();
    builder.open(ID, "\\id").text(" GEN").end();
    assert_eq!(codes(&mut builder), [6, 8]);
}

#[test]
fn chapters_go_by_their_links() {
    let mut builder = begun();
    builder.leaf(kind::CHAPTER, C, "\\c 2", 0);
    builder.leaf(kind::CHAPTER, C, "\\c 3", 1);
    builder.leaf(kind::CHAPTER, C, "\\c 4", 0);
    let expected = [
        "expected chapter 2 but found 0",
        "chapter 1 appears more than once",
        "chapter 0 appears more than once",
        "expected chapter 2 but found 0",
    ];
    assert_eq!(messages(&mut builder), expected);
}

#[test]
fn an_end_takes_the_nearest_start_of_its_base() {
    let mut builder = begun();
    builder.open(QT, "\\qt-s").end();
    let first = builder.nodes[5].start;
    builder.open(QT, "\\x-s").end().open(QT, "\\qt-s").end();
    builder.open(QT, "\\qt-e").end().open(QT, "\\-e").end();
    let expected = [
        "milestone \\-e has no matching \\-s",
        "milestone \\qt-s has no matching \\qt-e",
        "milestone \\x-s has no matching \\x-e",
    ];
    assert_eq!(messages(&mut builder), expected);
    assert_eq!(found(&mut builder)[1].start, first);
}
