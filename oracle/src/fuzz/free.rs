//! Documents whose links pair, but whose spans lie anywhere: over one another, inside one another, in any order.

use crate::document::{CATEGORIES, Document, Entry, Node, ROLES, kind, table_text};
use crate::refusals::DEEPEST;
use crate::rng::Rng;
use crate::samples::node;

/// Names of table entries: those that a check looks for, and others.
const NAMES: [&str; 30] = [
    "id",
    "id",
    "c",
    "c",
    "v",
    "v",
    "p",
    "b",
    "s",
    "tr",
    "tc",
    "th",
    "ca",
    "cp",
    "va",
    "vp",
    "qt-s",
    "qt-e",
    "z-s",
    "z-e",
    "w",
    "rb",
    "fig",
    "fr",
    "xop",
    "f",
    "x",
    "nd",
    "abcdefghijklmnop",
    "1",
];

/// Pieces of a source. A span begins and ends between two of them.
const PIECES: [&str; 71] = [
    "\\id",
    " GEN",
    " gen\n",
    " FRT x",
    " ZZZ",
    "\\c 1",
    "\\c 2 ",
    "\\c1",
    "\\c 01",
    "\\c",
    "\\c  ",
    "\\v 1 ",
    "\\v 2a ",
    "\\v3",
    "\\v03b ",
    "\\v 4-5",
    "\\v",
    "\\v 0 ",
    "\\v 4294967295",
    "\\v 4294967296 ",
    "\\v04294967297a",
    "\\v x",
    "\\vx",
    "\\v +5 ",
    "\\v -3",
    "\\v 1-x ",
    "\\vé",
    "\\p",
    "\\b",
    "\\s1",
    "\\tr",
    "\\tc1",
    "\\tcr2-3",
    "\\th+1",
    "\\tc4294967295",
    "\\thc",
    "\\ca",
    "\\+cp",
    "\\va*",
    "\\vp|",
    "\\ca1",
    "\\qt-s",
    "\\qt-e",
    "\\z-s",
    "\\z-e",
    "-s",
    "-e",
    "\\w",
    "\\rb",
    "\\fig",
    "\\fr",
    "\\xop ",
    "\\f",
    "|",
    "|a",
    "|a=\"\"",
    "|a=\"b\" c",
    "|a=b c=\"",
    "|=",
    " ",
    "\n",
    "\u{3000}",
    "\u{85}",
    "\u{200B}",
    "é",
    "😀",
    "word",
    "\\",
    "*",
    "+",
    "\"",
];

struct Free {
    /// Where pieces begin, and the source's end.
    borders: Vec<u32>,
    markers: usize,
    nodes: Vec<Node>,
    /// The opens that aren't closed yet.
    open: Vec<usize>,
}

pub fn document(rng: &mut Rng) -> Document {
    let entries: Vec<Entry<'_>> = (0..rng.below(16)).map(|_| entry(rng)).collect();
    let mut source = String::new();
    let mut borders = vec![0];
    for _ in 0..rng.below(24) {
        source.push_str(rng.pick(&PIECES));
        borders.push(source.len() as u32);
    }
    let mut free = Free {
        borders,
        markers: entries.len(),
        nodes: vec![Node::default()],
        open: Vec::new(),
    };
    free.write_nodes(rng);
    let mut document = Document {
        table: table_text(&entries),
        source: source.into_bytes(),
        tape: Vec::new(),
    };
    document.set_nodes(&free.nodes);
    document
}

fn entry(rng: &mut Rng) -> Entry<'static> {
    Entry {
        name: rng.pick(&NAMES),
        category: rng.below(CATEGORIES.len()),
        role: rng.below(ROLES.len()),
    }
}

impl Free {
    fn write_nodes(&mut self, rng: &mut Rng) {
        let deepest = if rng.one_in(100) {
            DEEPEST + 1
        } else {
            DEEPEST
        };
        let nests = rng.one_in(50);
        for _ in 0..rng.below(40) {
            match rng.below(10) {
                0..3 if self.open.len() < deepest => self.push_open(rng),
                3..5 if !nests && !self.open.is_empty() => self.close(rng),
                _ => self.leaf(rng),
            }
        }
        while nests && self.open.len() < deepest {
            self.push_open(rng);
        }
        while !self.open.is_empty() {
            self.close(rng);
        }
        self.nodes[0].link = self.nodes.len() as u32;
        if rng.one_in(4) {
            self.push(rng, kind::BLOCK_END, 0);
        }
    }

    /// Mostly one piece or two, at times none or many.
    fn push(&mut self, rng: &mut Rng, kind: u8, link: u32) {
        let first = rng.below(self.borders.len());
        let pieces = match rng.below(8) {
            0 => 0,
            1..6 => 1,
            6 => 2,
            _ => rng.below(self.borders.len()),
        };
        let last = (first + pieces).min(self.borders.len() - 1);
        let (start, end) = (self.borders[first], self.borders[last]);
        let marker = rng.below(self.markers + 1 + self.markers / 4) as u16;
        self.nodes
            .push(node(kind, marker, start, end - start, link));
    }

    fn push_open(&mut self, rng: &mut Rng) {
        self.open.push(self.nodes.len());
        self.push(rng, kind::MARKER_OPEN, 0);
    }

    fn close(&mut self, rng: &mut Rng) {
        let open = self.open.pop().expect("a close follows its open");
        self.nodes[open].link = self.nodes.len() as u32;
        let kind = rng.pick(&[kind::MARKER_CLOSE, kind::BLOCK_END]);
        let link = rng.word() as u32;
        self.push(rng, kind, link);
    }

    fn leaf(&mut self, rng: &mut Rng) {
        let kind = rng.pick(&[
            kind::CHAPTER,
            kind::VERSE,
            kind::VERSE,
            kind::TEXT,
            kind::TEXT,
            kind::ATTRIBUTE,
            kind::ERROR,
        ]);
        let link = match rng.below(16) {
            0 => rng.pick(&[u32::MAX, u32::MAX - 1, 1 << 31]),
            _ => rng.below(5) as u32,
        };
        self.push(rng, kind, link);
    }
}

#[cfg(test)]
mod tests {
    use super::*;
    use crate::refusals::refusal;

    #[test]
    fn only_nesting_and_labels_turn_a_document_back() {
        let rng = &mut Rng::new(9);
        let mut counts = [0; 10];
        for _ in 0..4000 {
            let refused = refusal(&document(rng), usize::MAX, usize::MAX);
            counts[refused.map_or(0, |(number, _)| number as usize)] += 1;
        }
        assert_eq!(counts.iter().filter(|&&count| count > 0).count(), 3);
        assert!(counts[0] > 3000 && counts[8] > 0 && counts[9] > 0);
    }

    #[test]
    fn spans_overlap() {
        let rng = &mut Rng::new(10);
        let overlapping = |document: &Document| {
            let spans: Vec<Node> = document.nodes().skip(1).collect();
            spans
                .windows(2)
                .any(|two| u64::from(two[1].start) < two[0].end())
        };
        let count = (0..200).filter(|_| overlapping(&document(rng))).count();
        assert!(count > 100, "{count}");
    }
}
