//! Folders of files for check-exercise, mark-exercise and read-exercise.

use crate::document::{Document, NODE_BYTES, Node, kind};
use crate::reading;
use crate::refusals::DEEPEST;
use crate::samples::{self, Builder, entry, listing, read};

/// A passage in several scripts, each check of a whole book somewhere in it.
const GREEK: &str = "\\id JHN Κατὰ Ἰωάννην\n\\c 1\n\\p \\v 1 Ἐν ἀρχῇ ἦν ὁ λόγος, \\nd θεὸς\\nd*\n\\v 3 πάντα δι’ αὐτοῦ \\ft ἐγένετο\\ft* \\w λόγος|lemma=λόγος\\w*\n\\c 2\n\\v 01 Καὶ τῇ ἡμέρᾳ\n\\p \\v2 καὶ \\qt-s |who=\"Ἰησοῦς\"\\*τί ἐμοὶ\n";
const ARABIC: &str = "\\id GEN سفر التكوين\n\\c 1\n\\p \\v 1 فِي ٱلْبَدْءِ \\add خلق\\add* \\v ٢ ٱللهُ\n\\v 2 وَكَانَتِ ٱلْأَرْضُ \\w خَرِبَةً|\\w* \\qt-e\\* \\va ٣\\va*\n";
/// Greek and Arabic with each mark a character of its own.
const COMBINING: &str = "\\id JHN Κατα\u{300} Ι\u{313}ωα\u{301}ννην\n\\c 1\n\\p \\v 1 Ε\u{313}ν α\u{313}ρχη\u{342}\u{345} η\u{313}\u{342}ν ο\u{314} λο\u{301}γος \\v 3 \\w λο\u{301}γος|\\w* \\xop α\u{313}ρχη\u{301}\\xop*\n\\v 4 ف\u{650}ي \\qt-e\\* ال\u{652}ب\u{64E}د\u{652}ء\u{650} \\va ٣\\va*\n";
/// A byte order mark, lines that end in bytes 13 and 10, characters of four bytes.
const CRLF: &str = "\u{FEFF}\\id gen 😀\r\n\\c 1\r\n\\p \\v 1 👩\u{200D}👧 \\v 3 𐀀𐀁 \\ft 😀\\ft* \\fig 😀|\\fig*\r\n\\v 4 \\nd cafe\u{301}|x\\nd*\r\n😀\\v5 \\qt-s\\*\r\n";
const EACH_CODE: &str = "text \\id gen\n\\p early\n\\c 01\n\\s \\v 1 a\n\\p \\nd \\v 3 b\\nd* \\ft out\\ft*\n\\b full\n\\c\n\\c 5\n\\c 5\n\\p \\v \n\\fig |src=\"a\"\\fig* \\w \\w* \\rb word\\rb* \\w a|\\w* \\w b|x=\"\\w* \\w c|k v=\"1\"\\w* \\w d|v=\"\"\\w* \\w e|v=w\\w* \\nd f|g\\nd*\n\\tr \\tc2 h\n\\p \\cp 3\\cp* \\qt-s\\* \\zaln-e\\*\n\\id XYZ\n";

/// A text as an author writes it, with the closes that the reader asks for and a verse left out.
const OWN_TEXT: &str = "\\id GEN A text of one's own\n\\h Genesis\n\\mt1 Genesis\n\\c 1\n\\s1 The beginning\n\\p\n\\v 1 In the beginning\\f + \\fr 1:1 \\fr*\\ft A note and its parts are closed.\\ft*\\f* \\w God|lemma=\"Elohim\"\\w* created.\n\\v 3 And God said,\n\\q1 \\qt-s |who=\"God\"\\*Let there be light\\qt-e\\*\n\\b\n\\tr \\tc1 a row\\tc1*\\tc2 and its cells\\tc2*\n";
/// Verses of which nobody can read the number, in both ways, and ranges of which nobody can read the end.
const UNREADABLE_VERSES: &str = "\\id GEN Verse numbers nobody can read\n\\c 1\n\\p\n\\v 1 read\n\\v abc no digits\n\\v 4294967296 too large\n\\v 2-x the start serves\n\\v 3-4294967296 the start serves\n\\v 4 read\n\\v x-5 no digits where it begins\n\\v 4294967295-1 read, and large\n\\c 2\n\\p\n\\v +1 no digits\n\\v ١ no digits\n\\v 0004294967296-3 too large, with zeros before it\n\\v4294967297 too large, and glued\n\\v 1 read\n";
const UNKNOWN_MARKER: &str = "\\id GEN\n\\c 1\n\\p\n\\v 1 In the \\begin beginning\\begin*\n";
/// The note's close comes while its text is open.
const UNMATCHED_MARKER: &str =
    "\\id GEN\n\\c 1\n\\p\n\\v 1 In the beginning\\f + \\ft A note\\f* was the word.\n";

/// A text under the table of USFM 3.1, with the tape that the reader makes of it, if any.
fn own_text(text: &str) -> Document {
    let table = include_bytes!("../../tables/usfm-3.1.txt");
    let mut document = Document {
        table: table.to_vec(),
        source: text.as_bytes().to_vec(),
        tape: Vec::new(),
    };
    if let Ok(nodes) = reading::read(table, text.as_bytes(), usize::MAX) {
        document.set_nodes(&nodes);
    }
    document
}

/// The document of document 01's listing with another node at a place.
fn with_node(place: usize, change: impl FnOnce(&mut Node)) -> Document {
    let mut document = listing();
    let mut node = document.node(place);
    change(&mut node);
    document.set_node(place, node);
    document
}

fn refused() -> Vec<(&'static str, Document)> {
    let mut table = listing();
    table.table.truncate(table.table.len() - 1);
    let mut source = listing();
    source.source[23] = 0xE9;
    let mut tape = listing();
    tape.tape.pop();
    let mut deep = Builder::default();
    for _ in 0..=DEEPEST {
        deep.open(0, "\\p ");
    }
    let mut split = Builder::default();
    split.leaf(kind::VERSE, 0, "\\vé1 ", 1);
    vec![
        ("refused-1", table),
        ("refused-3", source),
        ("refused-4", tape),
        ("refused-5", with_node(7, |node| node.kind = 9)),
        ("refused-6", with_node(7, |node| node.len = 5)),
        ("refused-7", with_node(5, |node| node.link = 7)),
        ("refused-8", deep.under(&[entry("p", 3, 2)])),
        ("refused-9", split.under(&[entry("vv", 2, 0)])),
        ("refused-14", million_errors("\\v 01 ")),
        ("refused-15", read("\\id GEN\n\\c 1\n\\p Word\n")),
        ("refused-16", own_text(UNKNOWN_MARKER)),
        ("refused-17", own_text(UNMATCHED_MARKER)),
    ]
}

/// More findings than the listing holds.
fn many() -> Document {
    let mut builder = Builder::default();
    for verse in 0..1_030 {
        let text = format!("\\v {} \n", 3 * verse + 2);
        builder.leaf(kind::VERSE, 0, &text, 0);
    }
    builder.under(&[entry("v", 2, 0)])
}

/// A thousand attribute nodes that share a text with a thousand errors, behind this verse: with a zero before its number there
/// is one error more.
pub fn million_errors(verse: &str) -> Document {
    let entries = [
        entry("id", 0, 1),
        entry("c", 1, 0),
        entry("v", 2, 0),
        entry("p", 3, 2),
        entry("w", 4, 0),
    ];
    let mut builder = Builder::default();
    builder.open(0, "\\id").text(" GEN\n").end();
    builder.leaf(kind::CHAPTER, 1, "\\c 1\n", 1).open(3, "\\p ");
    builder.leaf(kind::VERSE, 2, verse, 1).open(4, "\\w a");
    let attributes = "|".to_string() + &"x= ".repeat(1_000);
    builder.leaf(kind::ATTRIBUTE, 0, &attributes, 0);
    let shared = builder.nodes[builder.nodes.len() - 1];
    builder.nodes.extend([shared; 999]);
    builder.close(kind::MARKER_CLOSE, "\\w*").under(&entries)
}

/// A book code that fills the source, so that its message is longer than the listing's room.
fn long_message() -> Document {
    let code = "x".repeat(65_530);
    read(&format!("\\id {code}"))
}

/// Files of the largest size: blank text, and texts without a byte.
fn full(extra: usize) -> Document {
    let mut builder = Builder::default();
    builder.open(0, "\\id").text(" GEN").end();
    while builder.nodes.len() < 65_536 / NODE_BYTES {
        builder.text("");
    }
    builder
        .source
        .push_str(&" ".repeat(65_536 + extra - builder.source.len()));
    builder.under(&[entry("id", 0, 1)])
}

/// Every example by its name.
pub fn examples() -> Vec<(&'static str, Document)> {
    let mut list = refused();
    list.extend([
        ("listing", listing()),
        ("greek", read(GREEK)),
        ("arabic", read(ARABIC)),
        ("combining", read(COMBINING)),
        ("crlf", read(CRLF)),
        ("each-code", read(EACH_CODE)),
        ("many", many()),
        ("long-message", long_message()),
        ("full", full(0)),
        ("too-large", full(1)),
        ("empty", Document::default()),
        ("own-text", own_text(OWN_TEXT)),
        ("unreadable-verses", own_text(UNREADABLE_VERSES)),
        (
            "clean",
            samples::read("\\id GEN\n\\c 1\n\\p \\v 1 a \\v 2 b\n"),
        ),
    ]);
    list
}
