//! The grammar: text and tape grow together, every open gets its close.

use super::items::{MIXES, Mix, fitting, has};
use super::labels::Counter;
use super::tables::MILESTONE;
use crate::document::{Document, Entry, Node, kind, table_text};
use crate::parts::strip_level_suffix;
use crate::refusals::DEEPEST;
use crate::rng::Rng;

/// How a marker ends.
#[derive(Clone, Copy, PartialEq)]
pub enum Ending {
    /// A BlockEnd without text.
    Block,
    /// A MarkerClose that repeats the name.
    Inline,
    /// A MarkerClose without a name.
    Milestone,
}

pub struct Layout<'r> {
    pub rng: &'r mut Rng,
    pub entries: Vec<Entry<'static>>,
    pub source: String,
    pub nodes: Vec<Node>,
    pub mix: Mix,
    pub counter: Counter,
    /// Nodes still to be written, as an aim.
    pub budget: usize,
    pub depth: usize,
    pub deepest: usize,
}

/// A document under a table of these entries.
pub fn document(rng: &mut Rng, entries: Vec<Entry<'static>>) -> Document {
    let budget = budget(rng);
    let weights = MIXES.map(|(weight, _)| weight);
    let mix = fitting(&MIXES[rng.weighted(&weights)].1, &entries);
    let counter = Counter::new(rng);
    let deepest = if rng.one_in(400) {
        DEEPEST + 2
    } else {
        DEEPEST
    };
    let table = table_text(&entries);
    let mut layout = Layout {
        rng,
        entries,
        source: String::new(),
        nodes: Vec::new(),
        mix,
        counter,
        budget,
        depth: 0,
        deepest,
    };
    layout.whole();
    let mut document = Document {
        table,
        source: layout.source.into_bytes(),
        tape: Vec::new(),
    };
    document.set_nodes(&layout.nodes);
    document
}

/// Mostly small documents.
fn budget(rng: &mut Rng) -> usize {
    match rng.below(1000) {
        0..10 => 0,
        10..150 => rng.from_to(1, 8),
        150..850 => rng.from_to(5, 40),
        850..990 => rng.from_to(30, 90),
        990..998 => rng.from_to(100, 500),
        _ => rng.from_to(500, 3000),
    }
}

impl Layout<'_> {
    fn whole(&mut self) {
        self.push(kind::ROOT, 0, 0);
        self.beginning();
        while self.budget > 0 {
            self.item();
        }
        if self.rng.one_in(60) {
            self.nest();
        }
        self.finish_root();
    }

    fn beginning(&mut self) {
        if self.budget == 0 {
            return;
        }
        match self.rng.below(100) {
            0..6 => self.text(),
            6..14 => self.blank_text(),
            _ => {}
        }
        if self.rng.percent(60) {
            self.identification();
        }
        if self.rng.percent(40) {
            self.chapter();
        }
    }

    /// The root's link is the number of nodes, or that of a last close of its own.
    fn finish_root(&mut self) {
        if self.rng.percent(30) {
            let close = self.rng.pick(&[kind::BLOCK_END, kind::MARKER_CLOSE]);
            self.push(close, 0, self.source.len());
            self.nodes[0].link = self.nodes.len() as u32 - 1;
        } else {
            self.nodes[0].link = self.nodes.len() as u32;
        }
        self.nodes[0].len = self.source.len() as u32;
    }

    /// A node whose span runs from `from` to the end of the source so far.
    pub fn push(&mut self, kind: u8, marker: u16, from: usize) -> usize {
        self.budget = self.budget.saturating_sub(1);
        self.nodes.push(Node {
            kind,
            flags: 0,
            marker,
            start: from as u32,
            len: (self.source.len() - from) as u32,
            link: 0,
        });
        self.nodes.len() - 1
    }

    // --- leaves ---

    pub fn leaf(&mut self, kind: u8, write: impl FnOnce(&mut Rng, &mut String)) {
        let from = self.source.len();
        write(self.rng, &mut self.source);
        let place = self.push(kind, 0, from);
        self.odd_span(place, 200);
    }

    pub fn written_text(&mut self, content: &str) {
        let from = self.source.len();
        self.source.push_str(content);
        self.push(kind::TEXT, 0, from);
    }

    /// Once in `rarity` times the node's span is empty or that of another node.
    pub fn odd_span(&mut self, place: usize, rarity: usize) {
        if !self.rng.one_in(rarity) {
            return;
        }
        if self.rng.one_in(3) {
            self.nodes[place].len = 0;
        } else if place > 1 {
            let other = self.nodes[self.rng.from_to(1, place - 1)];
            self.nodes[place].start = other.start;
            self.nodes[place].len = other.len;
        }
    }

    // --- markers ---

    /// The number of the entry that a parser would find, now and then another.
    pub fn marker_of(&mut self, name: &str) -> u16 {
        if self.rng.one_in(40) {
            return self.rng.below(self.entries.len() + 2) as u16;
        }
        let place = self
            .place_of(name)
            .or_else(|| self.place_of(strip_level_suffix(name)))
            .or_else(|| self.place_of_glued(name));
        match place {
            Some(place) => place as u16,
            None => self.marker_of_unknown(name),
        }
    }

    fn place_of(&self, name: &str) -> Option<usize> {
        self.entries.iter().position(|entry| entry.name == name)
    }

    pub fn place_of_glued(&self, name: &str) -> Option<usize> {
        let bytes = name.as_bytes();
        let glued = bytes.len() >= 2 && b"vc".contains(&bytes[0]) && bytes[1].is_ascii_digit();
        glued.then(|| self.place_of(&name[..1]))?
    }

    /// Past the table, or an entry that fits a milestone, so that its name differs from the text's.
    fn marker_of_unknown(&mut self, name: &str) -> u16 {
        if (name.ends_with("-s") || name.ends_with("-e")) && self.rng.percent(80) {
            let is_milestone = |&place: &usize| self.entries[place].category == MILESTONE;
            let places: Vec<usize> = (0..self.entries.len()).filter(is_milestone).collect();
            if !places.is_empty() {
                return self.rng.pick(&places) as u16;
            }
        }
        match self.rng.below(4) {
            0 => self.entries.len() as u16,
            1 if !self.entries.is_empty() => self.rng.below(self.entries.len()) as u16,
            _ => u16::MAX,
        }
    }

    /// A marker with what `inside` writes between its open and its close.
    pub fn marker(&mut self, name: &str, ending: Ending, inside: impl FnOnce(&mut Self)) {
        if self.depth >= self.deepest {
            return self.text();
        }
        let open = self.open(name, ending);
        self.depth += 1;
        inside(self);
        self.depth -= 1;
        self.close(open, name, ending);
    }

    fn open(&mut self, name: &str, ending: Ending) -> usize {
        let marker = self.marker_of(name);
        let from = self.source.len();
        self.source.push('\\');
        if ending == Ending::Inline && self.rng.percent(if self.depth > 1 { 30 } else { 3 }) {
            self.source.push('+');
        }
        self.source.push_str(name);
        let place = self.push(kind::MARKER_OPEN, marker, from);
        self.odd_span(place, 150);
        place
    }

    fn close(&mut self, open: usize, name: &str, ending: Ending) {
        let from = self.source.len();
        let kind = match ending {
            Ending::Block => kind::BLOCK_END,
            Ending::Inline => {
                self.source.push('\\');
                self.source.push_str(name);
                self.source.push('*');
                kind::MARKER_CLOSE
            }
            Ending::Milestone => {
                self.source.push_str("\\*");
                kind::MARKER_CLOSE
            }
        };
        let kind = if self.rng.one_in(50) {
            self.rng.pick(&[kind::BLOCK_END, kind::MARKER_CLOSE])
        } else {
            kind
        };
        let place = self.push(kind, self.nodes[open].marker, from);
        self.nodes[open].link = place as u32;
        self.nodes[place].link = open as u32;
    }

    /// One of the names, mostly one that the table knows.
    pub fn pick_name<'n>(&mut self, names: &[&'n str]) -> &'n str {
        for _ in 0..4 {
            let name = self.rng.pick(names);
            if has(&self.entries, name) {
                return name;
            }
        }
        self.rng.pick(names)
    }
}
