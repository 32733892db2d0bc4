//! The table of USFM 3.1 that users are given, by the plain refusals, the books' table and the published `lookup`.

use std::collections::HashSet;

use oracle::books::MARKERS;
use oracle::document::{Document, Entry, Node, entries};
use oracle::parts::lookup;
use oracle::reading::read;
use oracle::refusals::{refusal, table_refusal};

const TABLE: &[u8] = include_bytes!("../../tables/usfm-3.1.txt");

fn markers() -> Vec<Entry<'static>> {
    entries(TABLE).expect("the table has its layout")
}

#[test]
fn number_1_lets_it_pass() {
    assert_eq!(table_refusal(TABLE), None);
}

#[test]
fn no_name_stands_twice() {
    let names: HashSet<&str> = markers().iter().map(|entry| entry.name).collect();
    assert_eq!(names.len(), markers().len());
}

#[test]
fn every_marker_of_the_books_is_in_it_with_its_category_and_role() {
    for entry in MARKERS.iter() {
        assert!(markers().contains(entry), "{entry:?}");
    }
}

#[test]
fn levels_and_columns_are_found_under_their_names() {
    for (written, name) in [
        ("h1", "h"),
        ("toc3", "toc"),
        ("toca1", "toca"),
        ("imt2", "imt"),
        ("is1", "is"),
        ("iq3", "iq"),
        ("ili2", "ili"),
        ("io4", "io"),
        ("imte1", "imte"),
        ("mt1", "mt"),
        ("mte2", "mte"),
        ("ms3", "ms"),
        ("s2", "s"),
        ("sd1", "sd"),
        ("c12", "c"),
        ("v7", "v"),
        ("v7a-8", "v"),
        ("pi1", "pi"),
        ("ph3", "ph"),
        ("q1", "q"),
        ("q2", "q"),
        ("q4", "q"),
        ("qm1", "qm"),
        ("li1", "li"),
        ("lim2", "lim"),
        ("liv3", "liv"),
        ("th2", "th"),
        ("thr1", "thr"),
        ("thc4", "thc"),
        ("tc1", "tc"),
        ("tc1-2", "tc"),
        ("tcr3-4", "tcr"),
        ("tcc10", "tcc"),
        ("qt-s", "qt-s"),
        ("qt5-e", "qt5-e"),
        ("ts-s", "ts-s"),
    ] {
        let found = lookup(TABLE, written).map(|marker| markers()[marker as usize].name);
        assert_eq!(found, Some(name), "{written}");
    }
    for unknown in ["", "q-s", "va1b", "zz", "qt6-s", "Q1"] {
        assert_eq!(lookup(TABLE, unknown), None, "{unknown}");
    }
}

/// A marker of each chapter of USFM, written as the reader takes them.
const PASSAGE: &str = "\\id PSA - a passage\n\\usfm 3.1\n\\h Psalms\n\\toc1 Psalms\n\\mt1 Psalms\n\
    \\imt1 Introduction\n\\ip Text \\ior 1:1\\ior*\n\\io1 Outline\n\\c 1\n\\cl Psalm 1\n\\ca 2\\ca*\n\\s1 Heading\n\\r (Isa 40:3)\n\
    \\d A title.\n\\q1 \\v 1 \\va 2\\va*Words \\nd Lord\\nd* \\qs Selah.\\qs*\n\\q2 more\\f + \\fr 1:1 \\fr*\\ft note\\ft*\\f* \
    \\x - \\xo 1:1 \\xo*\\xt Gen 1:1\\xt*\\x*\n\\b\n\\li1 \\v 2 \\lik key\\lik* \\liv1 value\\liv1*\n\
    \\tr \\th1 a\\th1*\\thr2 b\\thr2*\n\\tr \\tc1 c\\tc1*\\tcr2 d\\tcr2*\n\\p \\v 3-4 \\w word|lemma=\"word\"\\w* \
    \\qt1-s |who=\"David\"\\*said\\qt1-e\\* \\fig a picture|src=\"a.jpg\"\\fig* \\ts\\*\n";

#[test]
fn a_passage_is_read_under_it() {
    let nodes = read(TABLE, PASSAGE.as_bytes(), 1_000).unwrap();
    let document = Document {
        table: TABLE.to_vec(),
        source: PASSAGE.into(),
        tape: nodes.iter().copied().flat_map(Node::to_bytes).collect(),
    };
    assert_eq!(refusal(&document, nodes.len(), nodes.len()), None);
    assert_eq!(read(TABLE, b"\\esb a\n\\esbe", 9), Err((16, 0)));
}
