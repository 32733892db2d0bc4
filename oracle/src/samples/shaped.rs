//! Documents by hand whose tape no reader of texts gives.

use super::{Builder, entry};
use crate::document::{Document, Entry, kind};
use crate::serialize::vref::BOOK_CODES;

const TABLE: [Entry<'static>; 8] = [
    entry("id", 0, 1),
    entry("c", 1, 0),
    entry("v", 2, 0),
    entry("p", 3, 2),
    entry("ca", 4, 1),
    entry("cp", 4, 1),
    entry("qt-s", 6, 0),
    entry("w", 4, 0),
];
const C: u16 = 1;
const V: u16 = 2;
const P: u16 = 3;
const CA: u16 = 4;
const CP: u16 = 5;
const QT: u16 = 6;
const W: u16 = 7;

/// All of them.
pub fn shaped() -> Vec<Document> {
    let mut list = vec![every_book(), note_only_of_other_categories()];
    list.extend(numbers_at_one_byte());
    list.extend(leaves_before_a_number());
    list.extend(odd_names());
    list.extend(milestones_of_one_entry());
    list.push(glued_labels());
    list
}

/// Every book code, each in an identification of its own.
fn every_book() -> Document {
    let mut builder = Builder::default();
    for code in BOOK_CODES {
        builder.open(0, "\\id").text(&format!(" {code}\n")).end();
    }
    builder.under(&TABLE)
}

/// The check whether a marker stands in a note is for character markers alone.
fn note_only_of_other_categories() -> Document {
    let entries: Vec<Entry<'_>> = (0..8).map(|category| entry("fr", category, 0)).collect();
    let mut builder = Builder::default();
    for marker in 0..8 {
        builder.open(marker, "\\fr").text(" a").end();
    }
    builder.under(&entries)
}

/// A repeated number that starts where the first one starts, of the same length and longer.
fn numbers_at_one_byte() -> Vec<Document> {
    let document = |more: u32| {
        let mut builder = Builder::default();
        builder.leaf(kind::CHAPTER, C, "\\c 1\n", 1);
        let first = builder.nodes.len();
        builder.open(CA, "\\ca").text(" 2").end();
        let second = builder.nodes.len();
        builder.open(CA, "\\ca").end().open(CA, "\\ca").end();
        builder.nodes[second].start = builder.nodes[first].start;
        builder.nodes[second].len += more;
        builder.under(&TABLE)
    };
    vec![document(0), document(1)]
}

/// Only blank Text stands between an anchor and its number without parting them.
fn leaves_before_a_number() -> Vec<Document> {
    let document = |(kind, text): (u8, &str)| {
        let mut builder = Builder::default();
        builder.leaf(kind::CHAPTER, C, "\\c 1\n", 1);
        builder.leaf(kind, 0, text, 0);
        builder.open(CP, "\\cp").text(" 2").end();
        builder.under(&TABLE)
    };
    let leaves = [
        (kind::TEXT, ""),
        (kind::TEXT, " "),
        (kind::ERROR, ""),
        (kind::ERROR, " "),
        (kind::ATTRIBUTE, ""),
        (kind::VERSE, ""),
    ];
    leaves.map(document).to_vec()
}

/// Names that end, or don't, at what a marker is written with.
fn odd_names() -> Vec<Document> {
    let texts = [
        "\\ca\\x",
        "\\\\ca",
        "ca",
        "+ca",
        "\\+ca",
        "\\++ca",
        "\\ca*",
        "\\ca|x",
        "\\ca\u{85}x",
        "\\ca\u{200B}",
        "\\ca1",
        "\\va",
        "",
    ];
    let document = |text: &&str| {
        let mut builder = Builder::default();
        builder.open(CA, text).end().open(P, text).end();
        builder.leaf(kind::VERSE, V, text, 1);
        builder.under(&TABLE)
    };
    texts.iter().map(document).collect()
}

/// What a verse's name has beyond its table name is its label, whether a number begins it or not; with every finding of a verse.
fn glued_labels() -> Document {
    let mut builder = Builder::default();
    builder.open(W, "\\w");
    for text in [
        "\\v04294967296",
        "\\vx 1",
        "\\v+1",
        "\\v\u{200B}1",
        "\\v-",
        "\\v4294967296-2 3",
        "\\v1-x",
        "\\v2-04294967299",
        "\\x3",
    ] {
        builder.leaf(kind::VERSE, V, text, 0);
    }
    builder.leaf(kind::VERSE, u16::MAX, "\\vx y", 0);
    builder.under(&TABLE)
}

/// Bases come from the source: one entry serves starts and ends of any base.
fn milestones_of_one_entry() -> Vec<Document> {
    let document = |names: &[&str]| {
        let mut builder = Builder::default();
        for name in names {
            builder.open(QT, name);
            builder.leaf(kind::ATTRIBUTE, 0, "|a", 0).end();
        }
        builder.open(W, "\\qt-s").end();
        builder.under(&TABLE)
    };
    vec![
        document(&["\\qt1-s", "\\qt-s", "\\qt1-e", "\\qt2-e", "\\qt-e"]),
        document(&["\\-s", "\\x-s", "\\-e", "\\-e", "\\x-S", "\\x"]),
        document(&["\\x-e-s", "\\x-s-e", "\\x-s-s", "\\x-e-e"]),
    ]
}
