//! Documents for the tests.

use std::fs;
use std::path::{Path, PathBuf};

use harkoxin::raw::{self, MessageRequest, OpenStart};
use harkoxin::{Node, NodeKind, Refusal, Report, Table, Tape, check_bytes};

pub const TABLE: &str = "name=id\ncategory=identification\nrole=excluded\n\
    name=c\ncategory=chapter\nrole=content\n\
    name=v\ncategory=verse\nrole=content\n\
    name=p\ncategory=paragraph\nrole=boundary\n";

pub const SOURCE: &str = "\\id GEN\n\\c 1\n\\p\n\\v 2 Word";

/// The nodes of that source; its second verse comes first, which is its one finding.
pub const NODES: [Node; 9] = [
    Node::new(NodeKind::Root, 0, 0, 25, 9),
    Node::new(NodeKind::MarkerOpen, 0, 0, 3, 3),
    Node::new(NodeKind::Text, 0, 3, 5, 0),
    Node::new(NodeKind::BlockEnd, 0, 8, 0, 0),
    Node::new(NodeKind::Chapter, 1, 8, 5, 1),
    Node::new(NodeKind::MarkerOpen, 3, 13, 2, 8),
    Node::new(NodeKind::Verse, 2, 16, 5, 2),
    Node::new(NodeKind::Text, 0, 21, 4, 0),
    Node::new(NodeKind::BlockEnd, 3, 25, 0, 0),
];

/// Table, source and tape as bytes.
#[derive(Clone, Default)]
pub struct Document {
    pub table: Vec<u8>,
    pub source: Vec<u8>,
    pub tape: Vec<u8>,
}

impl Document {
    pub fn of(table: &str, source: &str, nodes: &[Node]) -> Document {
        Document {
            table: table.as_bytes().to_vec(),
            source: source.as_bytes().to_vec(),
            tape: Tape::from_nodes(nodes).as_bytes().to_vec(),
        }
    }

    pub fn listing() -> Document {
        Document::of(TABLE, SOURCE, &NODES)
    }

    /// The files of one of the repository's examples; one that isn't there counts as empty.
    pub fn example(name: &str) -> Document {
        let file = |file: &str| fs::read(examples().join(name).join(file)).unwrap_or_default();
        Document {
            table: file("table.txt"),
            source: file("source.usfm"),
            tape: file("nodes.bin"),
        }
    }

    pub fn table(&self) -> Table<'_> {
        Table::new(&self.table)
    }

    pub fn tape(&self) -> Tape<'_> {
        Tape::from_bytes(&self.tape)
    }

    pub fn check(&self) -> Result<Report, Refusal> {
        check_bytes(&self.table(), &self.source, &self.tape())
    }

    pub fn node_count(&self) -> usize {
        self.tape().len()
    }

    pub fn raw_check(&self, lists: &mut Lists) {
        raw::check(
            &self.table,
            &self.source,
            &self.tape,
            &mut lists.seen,
            &mut lists.opens,
            &mut lists.list,
            &mut lists.out,
        );
    }

    pub fn raw_report(&self, lists: &mut Lists, ends: &mut [u64], text: &mut [u8]) {
        raw::report(
            &self.table,
            &self.source,
            &self.tape,
            &mut lists.seen,
            &mut lists.opens,
            &mut lists.list,
            ends,
            text,
            &mut lists.out,
        );
    }

    pub fn raw_message(&self, request: MessageRequest, text: &mut [u8], out: &mut [u64]) {
        raw::message(&self.table, &self.source, &self.tape, request, text, out);
    }

    pub fn raw_messages(
        &self,
        list: &[u64],
        ends: &mut [u64],
        text: &mut [u8],
    ) -> [u64; raw::MESSAGES_WORDS] {
        let mut out = [u64::MAX; raw::MESSAGES_WORDS];
        let Document {
            table,
            source,
            tape,
        } = self;
        raw::messages(table, source, tape, list, ends, text, &mut out);
        out
    }
}

/// The lists that a check is lent.
#[derive(Clone, PartialEq, Debug)]
pub struct Lists {
    pub seen: Vec<u32>,
    pub opens: Vec<OpenStart>,
    pub list: Vec<u64>,
    pub out: Vec<u64>,
}

fn examples() -> PathBuf {
    Path::new(env!("CARGO_MANIFEST_DIR")).join("../../examples")
}

/// The names of the repository's examples.
pub fn example_names() -> Vec<String> {
    let folder = fs::read_dir(examples()).expect("the repository has examples");
    let folders = folder
        .map(Result::unwrap)
        .filter(|entry| entry.path().is_dir());
    let mut names: Vec<String> = folders
        .map(|entry| entry.file_name().into_string().unwrap())
        .collect();
    names.sort();
    assert!(names.len() >= 25, "{names:?}");
    names
}

/// What check-exercise prints for an example.
pub fn example_listing(name: &str) -> String {
    fs::read_to_string(examples().join(name).join("expected")).expect("an example has a listing")
}

/// What mark-exercise prints for an example.
pub fn example_mark(name: &str) -> String {
    fs::read_to_string(examples().join(name).join("expected-mark")).expect("an example has a mark")
}

/// Repeatable numbers (xorshift).
pub struct Numbers(u64);

impl Numbers {
    pub fn from_seed(seed: u64) -> Numbers {
        Numbers(seed.wrapping_mul(0x9E37_79B9_7F4A_7C15) | 1)
    }

    pub fn word(&mut self) -> u64 {
        self.0 ^= self.0 << 13;
        self.0 ^= self.0 >> 7;
        self.0 ^= self.0 << 17;
        self.0
    }

    pub fn below(&mut self, limit: usize) -> usize {
        (self.word() >> 16) as usize % limit.max(1)
    }
}
