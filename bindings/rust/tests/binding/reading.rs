//! Texts that are read to tapes, and checked.

use std::io::Write;
use std::path::{Path, PathBuf};
use std::{env, fs, io};

use harkoxin::raw::{self, DONE, NODE_BYTES, REFUSED};
use harkoxin::{
    Checker, Node, NodeKind, OwnedTape, Refusal, Report, Table, Tape, check, check_text,
    check_text_bytes,
};

use crate::common::{Document, Numbers, SOURCE, TABLE, example_names};

/// The listing's table with a character, a note, a milestone and a marker of category other.
fn table_text() -> String {
    let more = [
        ("nd", "character"),
        ("f", "note"),
        ("qt-s", "milestone"),
        ("esb", "other"),
    ];
    let lines = |(name, category)| format!("name={name}\ncategory={category}\nrole=content\n");
    TABLE.to_string() + &more.map(lines).concat()
}

/// The nodes of the listing's text, as the reader makes them.
const NODES: [Node; 11] = [
    Node::new(NodeKind::Root, 0, 0, 25, 11),
    Node::new(NodeKind::MarkerOpen, 0, 0, 3, 3),
    Node::new(NodeKind::Text, 0, 3, 5, 0),
    Node::new(NodeKind::BlockEnd, 0, 8, 0, 0),
    Node::new(NodeKind::Chapter, 1, 8, 4, 1),
    Node::new(NodeKind::Text, 0, 12, 1, 0),
    Node::new(NodeKind::MarkerOpen, 3, 13, 2, 10),
    Node::new(NodeKind::Text, 0, 15, 1, 0),
    Node::new(NodeKind::Verse, 2, 16, 4, 2),
    Node::new(NodeKind::Text, 0, 20, 5, 0),
    Node::new(NodeKind::BlockEnd, 3, 25, 0, 0),
];

const ANY: u64 = 0xA5A5_A5A5_A5A5_A5A5;

/// What the listing shows of the findings.
fn shown(report: &Report, source: &str) -> Vec<String> {
    let line = |finding: harkoxin::Finding<'_>| {
        let (position, code) = (finding.position(source), finding.code());
        let (severity, message) = (finding.severity(), finding.message());
        format!("{severity} {code} {position} {message}")
    };
    report.findings().map(line).collect()
}

fn refused(number: u64, place: u64) -> Refusal {
    Refusal { number, place }
}

#[test]
fn the_listings_text_is_read() {
    let tape = OwnedTape::read(&Table::from(TABLE), SOURCE).unwrap();
    assert_eq!(tape.as_tape(), Tape::from_nodes(&NODES));
    assert_eq!(Tape::from(&tape).len(), 11);
}

#[test]
fn a_text_has_the_findings_of_the_parsers_tape() {
    let table = Table::from(TABLE);
    let report = check_text(&table, SOURCE).unwrap();
    let parsed = Document::listing().check().unwrap();
    assert_eq!(shown(&report, SOURCE), shown(&parsed, SOURCE));
    assert_eq!(
        shown(&report, SOURCE),
        ["warning InvalidVerseSequence 4:1 expected verse 1 but found 2"]
    );
    assert_eq!((report.verses(), report.mark()), (1, parsed.mark()));
    let tape = OwnedTape::read(&table, SOURCE).unwrap();
    assert_eq!(check(&table, SOURCE, &tape.as_tape()), Ok(report));
}

#[test]
fn the_empty_text_is_its_root() {
    let tape = OwnedTape::read(&Table::from(""), "").unwrap();
    let root = [Node::new(NodeKind::Root, 0, 0, 0, 1)];
    assert_eq!(tape.as_tape(), Tape::from_nodes(&root));
}

#[test]
fn attributes_closes_and_milestones_are_read() {
    let table = table_text();
    let text = "\\nd a|b\\nd*\\qt-s |who\\*";
    let tape = OwnedTape::read(&Table::from(&*table), text).unwrap();
    let nodes = [
        Node::new(NodeKind::Root, 0, 0, 23, 9),
        Node::new(NodeKind::MarkerOpen, 4, 0, 3, 4),
        Node::new(NodeKind::Text, 0, 3, 2, 0),
        Node::new(NodeKind::Attribute, 0, 5, 2, 0),
        Node::new(NodeKind::MarkerClose, 4, 7, 4, 0),
        Node::new(NodeKind::MarkerOpen, 6, 11, 5, 8),
        Node::new(NodeKind::Text, 0, 16, 1, 0),
        Node::new(NodeKind::Attribute, 0, 17, 4, 0),
        Node::new(NodeKind::MarkerClose, 6, 21, 2, 0),
    ];
    assert_eq!(tape.as_tape(), Tape::from_nodes(&nodes));
}

#[test]
fn faults_have_their_places() {
    let text = table_text();
    let table = Table::from(&*text);
    for (number, place, text) in [
        (16, 0, "\\zz"),
        (16, 4, "\\p a\\zz* b"),
        (16, 4, "\\p é\\"),
        (16, 3, "\\p \\esb b"),
        (16, 6, "\\nd a \\+*"),
        (17, 0, "\\*"),
        (17, 4, "\\p a\\nd*"),
        (17, 5, "\\nd a\\p"),
        (17, 5, "\\nd a\\c 1"),
        (17, 8, "\\nd\\f a \\nd*"),
        (17, 3, "\\p \\qt-s a\\*"),
        (17, 3, "\\p \\qt-s \\*"),
        (17, 12, "\\p \\f + text"),
        (17, 0, "\\p*\\zz"),
        (16, 0, "\\zz\\p*"),
    ] {
        // The place counts bytes, of which `é` has two.
        let place = place + u64::from(text.contains('é'));
        let expected = refused(number, place);
        assert_eq!(OwnedTape::read(&table, text), Err(expected), "{text}");
        assert_eq!(check_text(&table, text), Err(expected), "{text}");
    }
}

#[test]
fn one_two_and_three_come_before() {
    let long = "\\zz".repeat(400_000);
    let bad_table = Table::from("name=p\n");
    assert_eq!(OwnedTape::read(&bad_table, &long), Err(refused(1, 7)));
    let table = Table::from(TABLE);
    assert_eq!(OwnedTape::read(&table, &long), Err(refused(2, 0)));
    assert_eq!(check_text(&table, &long), Err(refused(2, 0)));
    let at_limit = " ".repeat(1_048_576);
    assert_eq!(
        OwnedTape::read(&table, &at_limit).unwrap().as_tape().len(),
        2
    );
    let no_utf8 = b"\\zz\xE9";
    let expected = refused(3, 3);
    assert_eq!(OwnedTape::read_bytes(&table, no_utf8), Err(expected));
    assert_eq!(check_text_bytes(&table, no_utf8), Err(expected));
}

/// Reads the listing's text over a list of so many bytes: the list and the answer.
fn read_over(bytes: usize, words: usize) -> (Vec<u8>, Vec<u64>) {
    let (mut tape, mut out) = (vec![0xA5; bytes], vec![ANY; words]);
    raw::read(TABLE.as_bytes(), SOURCE.as_bytes(), &mut tape, &mut out);
    (tape, out)
}

#[test]
fn a_list_that_is_too_short_is_as_it_was() {
    for bytes in [0, 1, 16, 11 * NODE_BYTES - 1] {
        let (tape, out) = read_over(bytes, 5);
        assert_eq!(tape, vec![0xA5; bytes]);
        assert_eq!(out, [REFUSED, 18, 11, 0, ANY]);
    }
}

#[test]
fn behind_the_nodes_a_list_is_as_it_was() {
    let nodes = Tape::from_nodes(&NODES);
    for rest in [0, 1, 15, 16, 100] {
        let (tape, out) = read_over(11 * NODE_BYTES + rest, 5);
        assert_eq!(tape, [nodes.as_bytes(), &vec![0xA5; rest]].concat());
        assert_eq!(out, [DONE, 0, 0, 11, ANY]);
    }
}

#[test]
fn answers_are_written_as_far_as_there_is_room() {
    for words in 0..=raw::READ_WORDS {
        let (tape, out) = read_over(11 * NODE_BYTES, words);
        assert_eq!(tape, Tape::from_nodes(&NODES).as_bytes());
        assert_eq!(out, [DONE, 0, 0, 11][..words]);
        let (_, out) = read_over(0, words);
        assert_eq!(out, [REFUSED, 18, 11, 0][..words]);
    }
}

#[test]
fn a_text_with_a_fault_is_never_18() {
    let table = table_text();
    for (text, number, place) in [("\\p a\\zz", 16, 4), ("\\p a\\nd", 17, 7)] {
        let mut out = [ANY; raw::READ_WORDS];
        raw::read(table.as_bytes(), text.as_bytes(), &mut [], &mut out);
        assert_eq!(out, [REFUSED, number, place, 0]);
    }
}

#[test]
fn a_text_of_too_many_nodes_is_read_and_number_4_turns_it_back() {
    let table = Table::from(TABLE);
    for (verses, is_checked) in [(65_534, true), (65_535, false), (400_000, false)] {
        let text = "\\v".repeat(verses);
        let tape = OwnedTape::read(&table, &text).unwrap();
        assert_eq!(tape.as_tape().len(), verses + 1);
        let report = check(&table, &text, &tape.as_tape());
        assert_eq!(report, check_text(&table, &text));
        match is_checked {
            true => assert_eq!(report.unwrap().verses(), verses as u64),
            false => assert_eq!(report, Err(refused(4, 0))),
        }
    }
    // A node for each byte, and the root.
    let text = "\\p".repeat(1_048_576 / 2);
    let tape = OwnedTape::read(&table, &text).unwrap();
    assert_eq!(tape.as_tape().len(), 1_048_577);
}

#[test]
fn a_text_that_is_too_deep_is_read_and_number_8_turns_it_back() {
    let table = table_text();
    let table = Table::from(&*table);
    let nested = |block: &str, deep: usize| {
        let text = block.to_string() + &"\\nd".repeat(deep) + &"\\nd*".repeat(deep);
        let tape = OwnedTape::read(&table, &text).unwrap();
        assert!(tape.as_tape().len() > 2 * deep);
        check_text(&table, &text).err()
    };
    assert_eq!(nested("", 64), None);
    assert_eq!(nested("", 65), Some(refused(8, 65)));
    assert_eq!(nested("\\p", 63), None);
    assert_eq!(nested("\\p", 64), Some(refused(8, 65)));
    assert_eq!(nested("", 100_000), Some(refused(4, 0)));
}

#[test]
fn a_checker_reads_texts_one_after_another() {
    let text = table_text();
    let table = Table::from(&*text);
    let mut checker = Checker::new();
    let long = SOURCE.to_string() + &"\\p\\v 3".repeat(2_000);
    for text in [SOURCE, &long, "\\p \\f", "", SOURCE, "\\zz", &long] {
        assert_eq!(checker.check_text(&table, text), check_text(&table, text));
    }
}

#[test]
fn texts_of_anything_are_answered() {
    const SIGNS: [&str; 16] = [
        "\\", "\\p", "\\nd", "\\nd*", "\\f", "\\f*", "\\qt-s", "\\*", "|", " ", "\\v", "\\c", "1",
        "é", "a", "\n",
    ];
    let text = table_text();
    let table = Table::from(&*text);
    let numbers = &mut Numbers::from_seed(5);
    let (mut read, mut turned_back) = (0, 0);
    for _ in 0..20_000 {
        let count = numbers.below(9);
        let text: String = (0..count).map(|_| SIGNS[numbers.below(16)]).collect();
        match OwnedTape::read(&table, &text) {
            Ok(tape) => {
                let nodes = tape.as_tape().len();
                assert!((1..=text.len() + 1).contains(&nodes), "{text}");
                assert!(check_text(&table, &text).is_ok(), "{text}");
                read += 1;
            }
            Err(Refusal { number, place }) => {
                assert!(number == 16 || number == 17, "{text}");
                let rest = &text[place as usize..];
                assert!(rest.starts_with('\\') || rest.is_empty() && number == 17);
                turned_back += 1;
            }
        }
    }
    assert!(read > 3_000 && turned_back > 3_000, "{read}, {turned_back}");
}

#[test]
fn the_table_of_usfm_reads_a_text_of_ones_own() {
    let table = fs::read(folder("../../tables").join("usfm-3.1.txt")).unwrap();
    let table = Table::new(&table);
    let text =
        "\\id GEN\n\\c 1\n\\p\n\\v 1 Word\\f + \\ft text\\ft*\\f* \\w word|lemma=\"word\"\\w*\n";
    assert_eq!(check_text(&table, text).unwrap().total(), 0);
    let unclosed = "\\id GEN\n\\c 1\n\\p\n\\v 1 Word\\f + \\ft text\n\\p\n";
    assert_eq!(check_text(&table, unclosed), Err(refused(17, 39)));
}

fn folder(path: &str) -> PathBuf {
    Path::new(env!("CARGO_MANIFEST_DIR")).join(path)
}

/// A recorded case: table and text, the nodes that the list holds, and what is expected.
struct Case {
    name: String,
    table: Vec<u8>,
    text: Vec<u8>,
    room: Option<usize>,
    expected: Result<Vec<u8>, Refusal>,
}

/// The number behind a name on a line of its own.
fn number_of(lines: &str, name: &str) -> Option<u64> {
    let value = lines.lines().find_map(|line| line.strip_prefix(name))?;
    Some(value.parse().expect("a number"))
}

/// The bytes of a node from its row: kind, flags, marker, start, len and link.
fn bytes_of(row: &str) -> Vec<u8> {
    let fields: Vec<u32> = row.split(' ').map(|field| field.parse().unwrap()).collect();
    let [kind, flags, marker, rest @ ..] = &fields[..] else {
        panic!("a row has six fields");
    };
    let mut bytes = vec![*kind as u8, *flags as u8];
    bytes.extend((*marker as u16).to_le_bytes());
    bytes.extend(rest.iter().flat_map(|field| field.to_le_bytes()));
    bytes
}

impl Case {
    fn of(folder: &Path) -> Case {
        let file = |name: &str| fs::read(folder.join(name)).unwrap_or_default();
        let text = |name: &str| String::from_utf8(file(name)).unwrap();
        let expected = text("expected.txt");
        assert!(!expected.is_empty(), "{}", folder.display());
        Case {
            name: folder.display().to_string(),
            table: file("table.txt"),
            text: file("source.usfm"),
            room: text("room.txt").trim().parse().ok(),
            expected: match number_of(&expected, "refusal=") {
                Some(number) => Err(Refusal {
                    number,
                    place: number_of(&expected, "place=").unwrap(),
                }),
                None => Ok(expected.lines().flat_map(bytes_of).collect()),
            },
        }
    }

    /// Reads the text over a list of so many nodes.
    fn with_room(&self, nodes: usize) -> Result<Vec<u8>, Refusal> {
        let (mut tape, mut out) = (vec![0xA5; NODE_BYTES * nodes], [ANY; raw::READ_WORDS]);
        raw::read(&self.table, &self.text, &mut tape, &mut out);
        let [verdict, number, place, written] = out;
        let rest = tape.split_off(NODE_BYTES * written as usize);
        assert!(rest.iter().all(|&byte| byte == 0xA5), "{}", self.name);
        match verdict {
            DONE => Ok(tape),
            _ => Err(Refusal { number, place }),
        }
    }

    fn compare(&self) {
        let read = match self.room {
            Some(nodes) => self.with_room(nodes),
            None => {
                let tape = OwnedTape::read_bytes(&Table::new(&self.table), &self.text);
                tape.map(|tape| tape.as_tape().as_bytes().to_vec())
            }
        };
        assert_eq!(read, self.expected, "{}", self.name);
    }
}

/// The cases stand beside the repository, or where `HARKOXIN_CASES` says.
#[test]
fn recorded_cases_have_their_answers() {
    let named = env::var_os("HARKOXIN_CASES").map(PathBuf::from);
    let cases = named.unwrap_or_else(|| folder("../../../shared/cases/reader"));
    let Ok(folders) = fs::read_dir(&cases) else {
        // Not by a macro, whose lines a test that passes keeps to itself.
        let line = format!(
            "cases of the reader not tried: {} isn't there\n",
            cases.display()
        );
        io::stderr().write_all(line.as_bytes()).unwrap();
        return;
    };
    let paths = folders.map(|entry| entry.unwrap().path());
    let all: Vec<Case> = paths
        .filter(|path| path.is_dir())
        .map(|path| Case::of(&path))
        .collect();
    all.iter().for_each(Case::compare);
    let with_room = all.iter().filter(|case| case.room.is_some()).count();
    assert!(
        with_room >= 10 && all.len() >= 300,
        "{with_room} of {}",
        all.len()
    );
}

/// What read-exercise prints for an example, made with the binding.
fn printed(document: &Document) -> Vec<u8> {
    const LARGEST_FILE: usize = 65_536;
    if document.table.len().max(document.source.len()) > LARGEST_FILE {
        return b"verdict=toolarge\n".to_vec();
    }
    match OwnedTape::read_bytes(&document.table(), &document.source) {
        Ok(tape) => tape.as_tape().as_bytes().to_vec(),
        Err(Refusal { number, place }) => {
            format!("verdict=refused\nrefusal={number}\nplace={place}\n").into_bytes()
        }
    }
}

#[test]
fn every_example_is_read_as_stored() {
    for name in example_names() {
        let expected = folder("../../examples").join(&name).join("expected-read");
        let expected = fs::read(expected).expect("an example has what read-exercise prints");
        assert!(printed(&Document::example(&name)) == expected, "{name}");
    }
}
