//! What stands in, around and after a node. Much of it gives no finding, and a wrong check would.

use super::{Feature, SHAPES, SURROUNDINGS};
use crate::document::{Document, Entry, Node, entries, kind};
use crate::refusals::{is_blank, marker_name};

const INSIDE: u8 = SURROUNDINGS;
const AROUND: u8 = SURROUNDINGS + 1;
const AFTER: u8 = SURROUNDINGS + 2;
/// Two markers at one byte.
const TOGETHER: u8 = SURROUNDINGS + 3;
const CELL: u8 = SURROUNDINGS + 4;
const LABEL: u8 = SHAPES + 1;
/// The labels of two chapters or verses in a row.
const LABELS: u8 = SHAPES + 2;
const ATTRIBUTES: u8 = SHAPES + 3;

/// The table names that the check compares with.
const NAMES: [&str; 28] = [
    "id", "b", "fig", "w", "rb", "tr", "ca", "cp", "va", "vp", "fr", "ft", "fk", "fq", "fqa", "fl",
    "fw", "fp", "fv", "fdc", "xop", "xot", "xnt", "xdc", "p", "c", "v", "f",
];

struct Tree<'a> {
    nodes: Vec<Node>,
    source: &'a str,
    entries: Vec<Entry<'a>>,
}

/// Adds the features of an accepted document.
pub fn add(document: &Document, out: &mut Vec<Feature>) {
    let tree = Tree {
        nodes: document.nodes().collect(),
        source: std::str::from_utf8(&document.source).unwrap_or_default(),
        entries: entries(&document.table).unwrap_or_default(),
    };
    tree.around(out);
    tree.together(out);
    let mut label_before = String::new();
    for place in 1..tree.nodes.len() {
        match tree.nodes[place].kind {
            kind::MARKER_OPEN => tree.inside(place, out),
            kind::ATTRIBUTE => out.push((ATTRIBUTES, number_of(&shape(tree.text(place), 12)))),
            kind::CHAPTER | kind::VERSE => {
                tree.after(place, out);
                let label = shape(tree.text(place), 10);
                out.push((LABEL, number_of(&label)));
                out.push((LABELS, number_of(&format!("{label_before} {label}"))));
                label_before = label;
            }
            _ => {}
        }
    }
}

impl Tree<'_> {
    fn text(&self, place: usize) -> &str {
        let node = self.nodes[place];
        &self.source[node.start as usize..node.end() as usize]
    }

    fn entry(&self, place: usize) -> Option<&Entry<'_>> {
        self.entries.get(self.nodes[place].marker as usize)
    }

    /// The place of its table name in `NAMES`, or the number of them.
    fn name(&self, place: usize) -> u64 {
        let name = self.entry(place).map(|entry| entry.name);
        let known = NAMES.iter().position(|&known| Some(known) == name);
        known.unwrap_or(NAMES.len()) as u64
    }

    /// What a node is to the checks that look at children and siblings.
    fn class(&self, place: usize) -> u64 {
        let node = self.nodes[place];
        let blank = self.text(place).chars().all(is_blank);
        match node.kind {
            kind::MARKER_OPEN => match marker_name(self.text(place)) {
                "ca" => 20 + self.content(place),
                "cp" => 23 + self.content(place),
                "va" => 26 + self.content(place),
                "vp" => 29 + self.content(place),
                _ if self.entry(place).is_none() => 10,
                _ => u64::from(node.kind),
            },
            kind::TEXT | kind::ATTRIBUTE | kind::ERROR if blank => 9 + u64::from(node.kind),
            other => u64::from(other),
        }
    }

    /// 0 for nothing but text below a marker, 1 for other leaves, 2 for markup.
    fn content(&self, place: usize) -> u64 {
        let below = &self.nodes[place + 1..self.nodes[place].link as usize];
        if below.iter().any(|node| node.kind == kind::MARKER_OPEN) {
            return 2;
        }
        u64::from(below.iter().any(|node| node.kind != kind::TEXT))
    }

    fn next_sibling(&self, place: usize) -> Option<usize> {
        let next = match self.nodes[place].kind {
            kind::MARKER_OPEN => self.nodes[place].link as usize + 1,
            _ => place + 1,
        };
        (next < self.nodes.len() && !self.nodes[next].is_close()).then_some(next)
    }

    /// The classes of the children, as a set and as the first two.
    fn inside(&self, place: usize, out: &mut Vec<Feature>) {
        let first = place + 1;
        let mut next = (first < self.nodes[place].link as usize).then_some(first);
        let mut set = 0;
        let mut begin = Vec::new();
        let in_row = self.entry(place).is_some_and(|entry| entry.name == "tr");
        while let Some(child) = next {
            set |= 1 << self.class(child);
            begin.push(self.class(child));
            if in_row {
                out.push((CELL, number_of(&shape(self.text(child), 8))));
            }
            next = self.next_sibling(child);
        }
        begin.truncate(2);
        let name = self.name(place);
        out.push((INSIDE, name << 33 | set));
        let begin = begin.iter().fold(1, |sum, class| sum << 5 | class);
        out.push((INSIDE, name << 33 | 1 << 32 | begin));
    }

    /// The next siblings of a chapter or verse.
    fn after(&self, place: usize, out: &mut Vec<Feature>) {
        let mut sum = u64::from(self.nodes[place].kind);
        let mut next = self.next_sibling(place);
        for _ in 0..3 {
            sum = sum << 5 | next.map_or(0, |place| self.class(place));
            next = next.and_then(|place| self.next_sibling(place));
            out.push((AFTER, sum));
        }
    }

    /// Alternate and published numbers that start at one byte.
    fn together(&self, out: &mut Vec<Feature>) {
        let places = 1..self.nodes.len();
        let numbers: Vec<usize> = places.filter(|&place| self.class(place) >= 20).collect();
        for (at, &place) in numbers.iter().enumerate() {
            for &other in &numbers[..at] {
                let (one, two) = (self.nodes[place], self.nodes[other]);
                if one.start == two.start {
                    let classes = self.class(place) << 8 | self.class(other);
                    out.push((TOGETHER, classes << 1 | u64::from(one.len == two.len)));
                }
            }
        }
    }

    /// The categories and roles that a marker, a chapter or a verse stands in.
    fn around(&self, out: &mut Vec<Feature>) {
        let mut open: Vec<u64> = Vec::new();
        for (place, node) in self.nodes.iter().enumerate().skip(1) {
            let set = open.iter().fold(0, |set, bit| set | bit);
            match node.kind {
                kind::MARKER_OPEN => {
                    out.push((AROUND, self.name(place) << 16 | set));
                    let bit = self.entry(place).map_or(1 << 12, role_bit);
                    open.push(bit);
                }
                kind::CHAPTER | kind::VERSE => {
                    out.push((AROUND, u64::from(node.kind) << 32 | set));
                }
                _ if node.is_close() => {
                    open.pop();
                }
                _ => {}
            }
        }
    }
}

/// Paragraphs by their roles, other categories alone.
fn role_bit(entry: &Entry<'_>) -> u64 {
    match entry.category {
        3 => 1 << (8 + entry.role),
        other => 1 << other,
    }
}

/// Digits, letters and blanks each as one sign; the first few signs.
fn shape(text: &str, most: usize) -> String {
    let sign = |c: char| match c {
        '0' => '0',
        '1'..='9' => '1',
        'a'..='z' => 'a',
        '-' | '+' | '|' | '=' | '"' | '\\' | '*' => c,
        ' ' => ' ',
        c if is_blank(c) => '_',
        c if c.is_ascii() => '.',
        _ => 'é',
    };
    let mut signs: Vec<char> = text.chars().map(sign).collect();
    signs.dedup();
    signs.truncate(most);
    signs.into_iter().collect()
}

/// FNV-1a, so that the numbers are the same everywhere.
fn number_of(text: &str) -> u64 {
    text.bytes().fold(0xCBF2_9CE4_8422_2325, |sum, byte| {
        (sum ^ u64::from(byte)).wrapping_mul(0x0000_0100_0000_01B3)
    })
}
