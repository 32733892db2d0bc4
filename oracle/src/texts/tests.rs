use super::*;
use crate::document::kind;
use crate::forms::FORMS;
use crate::samples::{Builder, entry, listing};

fn request(code: u64, form: u64, node: u64, first: u64, second: u64) -> Request {
    Request {
        code,
        form,
        node,
        first,
        second,
    }
}

/// A document with something to show for each text; the root spans the whole source.
fn with_each_text() -> Document {
    let mut builder = Builder::default();
    builder.open(0, "\\id").text(" gen x").end(); // 1 to 3
    builder.leaf(kind::CHAPTER, 1, "\\c 07 ", 7); // 4
    builder.leaf(kind::VERSE, 2, "\\v3b ", 3); // 5
    builder.open(3, "\\ca").end().open(3, "\\+vp*").end(); // 6 to 9
    builder.open(9, "\\qt-s").end(); // 10, 11
    builder.leaf(kind::TEXT, 0, "\\-e", 0); // 12
    builder.leaf(kind::VERSE, 2, "\\v", 0); // 13
    builder.open(0, "\\id").open(0, "\\id").text(" EXO").end(); // 14 to 17
    builder.text(" \u{3000}").text("GEN").end(); // 18 to 20
    let mut document = builder.under(&[
        entry("id", 0, 1),
        entry("c", 1, 0),
        entry("v", 2, 0),
        entry("ca", 4, 1),
    ]);
    let whole = document.source.len() as u32;
    let root = document.node(0);
    document.set_node(0, Node { len: whole, ..root });
    document
}

/// Each request with its text in the document above.
fn same_texts(requests: &[(Request, Option<&str>)]) {
    let document = with_each_text();
    let reader = Reader::new(&document);
    for &(request, expected) in requests {
        assert_eq!(reader.text(request).as_deref(), expected, "{request:?}");
    }
}

#[test]
fn texts_that_show_a_label() {
    same_texts(&[
        (
            request(11, 0, 5, 9, 0),
            Some("expected verse 9 but found 3b"),
        ),
        (
            request(11, 0, 5, 9, 123),
            Some("expected verse 9{ but found 3b"),
        ),
        (
            request(11, 0, 4, u64::MAX, 127),
            Some("expected verse 18446744073709551615\u{7F} but found 07"),
        ),
        (request(11, 0, 5, 9, 128), None),
        (request(11, 0, 5, 9, 1 << 32), None),
        (request(11, 0, 13, 9, 0), None),
        (request(11, 0, 6, 9, 0), None),
        (
            request(15, 0, 5, 0, 0),
            Some("chapter number `3b` has leading zeros"),
        ),
        (
            request(15, 1, 4, 0, 0),
            Some("verse number `07` has leading zeros"),
        ),
        (request(15, 2, 4, 0, 0), None),
        (request(15, 1, 12, 0, 0), None),
        (
            request(35, 0, 5, 0, 0),
            Some("verse label 3b has no number"),
        ),
        (
            request(35, 1, 4, u64::MAX, u64::MAX),
            Some("verse label 07 is too large"),
        ),
        (request(35, 2, 5, 0, 0), None),
        (request(35, 0, 13, 0, 0), None),
        (request(35, 1, 13, 0, 0), None),
        (request(35, 0, 6, 0, 0), None),
        (request(35, 1, 12, 0, 0), None),
        (request(35, 0, 0, 0, 0), None),
        (request(35, 0, 21, 0, 0), None),
        (request(36, 0, 5, 0, 0), None),
        (
            request(34, 0, 5, 0, 0),
            Some("\\v3b needs a space before its number; read as \\v 3b"),
        ),
        (request(34, 0, 4, 0, 0), None),
        (request(34, 0, 13, 0, 0), None),
        (request(34, 0, 6, 0, 0), None),
    ]);
}

#[test]
fn texts_that_show_the_tables_name() {
    same_texts(&[
        (
            request(13, 0, 8, 0, 0),
            Some("\\ca is only valid inside a note"),
        ),
        (
            request(13, 0, 5, 0, 0),
            Some("\\v is only valid inside a note"),
        ),
        (
            request(13, 0, 3, 0, 0),
            Some("\\id is only valid inside a note"),
        ),
        (request(13, 0, 2, 0, 0), None),
        (request(13, 0, 10, 0, 0), None),
        (request(13, 0, 0, 0, 0), None),
        (
            request(24, 0, 6, 0, 0),
            Some("body paragraph \\ca appears before any \\c (chapter)"),
        ),
        (request(24, 0, 12, 0, 0), None),
    ]);
}

#[test]
fn texts_that_show_the_sources_name() {
    same_texts(&[
        (
            request(16, 1, 10, 0, 0),
            Some("milestone \\qt-e has no matching \\qt-s"),
        ),
        (
            request(16, 0, 12, 0, 0),
            Some("milestone \\-s has no matching \\-e"),
        ),
        (request(16, 0, 11, 0, 0), None),
        (
            request(33, 0, 8, 0, 0),
            Some(
                "\\vp must directly follow its \\v (at most once per verse); it is kept as character text",
            ),
        ),
        (request(33, 0, 10, 0, 0), None),
        (
            request(32, 0, 0, 11, 0),
            Some("\\ has no default attribute; the value after `|` is invalid"),
        ),
        (
            request(32, 0, 20, 8, 0),
            Some("\\vp has no default attribute; the value after `|` is invalid"),
        ),
        (request(32, 0, 8, 21, 0), None),
        (request(32, 0, 8, 0, 0), None),
    ]);
}

#[test]
fn texts_that_show_a_book_code() {
    same_texts(&[
        (
            request(5, 0, 1, 0, 0),
            Some("book code \"gen\" should be uppercase: \"GEN\""),
        ),
        (
            request(5, 1, 15, 0, 0),
            Some("\"EXO\" is not a valid USFM book code"),
        ),
        // The first text is blank, which means no code; the one inside another marker isn't looked at.
        (request(5, 1, 14, 0, 0), None),
        (request(5, 1, 6, 0, 0), None),
        (request(5, 1, 0, 0, 0), None),
        (request(5, 2, 1, 0, 0), None),
    ]);
}

#[test]
fn the_root_shows_no_name() {
    for name in ["\\ca", "\\x-s"] {
        let mut document = Builder::default().text(name).under(&[]);
        let (root, text) = (document.node(0), document.node(1));
        document.set_node(
            0,
            Node {
                len: text.len,
                ..root
            },
        );
        let reader = Reader::new(&document);
        let has_text =
            |node| [16, 33].map(|code| reader.text(request(code, 0, node, 0, 0)).is_some());
        assert_eq!(has_text(0), [false, false]);
        assert!(has_text(1).contains(&true));
    }
}

#[test]
fn the_known_texts_are_the_list_of_forms() {
    let document = with_each_text();
    let reader = Reader::new(&document);
    let n = document.node_count() as u64;
    let known =
        |code, form| (0..n).any(|node| reader.text(request(code, form, node, 1, 0)).is_some());
    let mut all = Vec::new();
    for code in (0..70).chain([u64::from(u32::MAX) + 5, u64::MAX]) {
        for form in [0, 1, 2, 3, 4, 5, 1 << 32, u64::MAX] {
            if known(code, form) {
                all.push((code as u32, form));
            }
            assert_eq!(reader.text(request(code, form, n, 1, 0)), None);
        }
    }
    assert_eq!(all, FORMS);
}

#[test]
fn the_listings_finding_has_its_text() {
    let document = listing();
    let text = Reader::new(&document).text(request(11, 0, 6, 1, 0));
    assert_eq!(text.unwrap(), "expected verse 1 but found 2");
}

#[test]
fn texts_together_stop_where_one_is_missing_or_has_no_room() {
    let texts = [Some("one"), Some("two!"), None, Some("four")];
    let written = |room| written_texts(texts.into_iter(), room);
    let stopped = |bytes: &str, ends: &[u64], number, place| WrittenTexts {
        bytes: bytes.as_bytes().to_vec(),
        ends: ends.to_vec(),
        stopped: Some((number, place)),
    };
    assert_eq!(written(2), stopped("", &[], 13, 3));
    assert_eq!(written(3), stopped("one", &[3], 13, 4));
    assert_eq!(written(6), stopped("one", &[3], 13, 4));
    assert_eq!(written(7), stopped("onetwo!", &[3, 7], 12, 0));
    let all = written_texts(texts[..2].iter().copied(), 7);
    assert_eq!((all.ends, all.stopped), (vec![3, 7], None));
    assert_eq!(
        written_texts(std::iter::empty::<Option<&str>>(), 0),
        WrittenTexts::default()
    );
}
