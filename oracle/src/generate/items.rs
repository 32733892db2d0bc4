//! What a run of siblings is made of.

use super::layout::{Ending, Layout};
use super::names::*;
use super::{attributes, words};
use crate::document::{Entry, Node, kind};
use crate::parts::strip_level_suffix;
use crate::refusals::{DEEPEST, marker_name};

/// A mix weighs the items in the order of `item`.
const ITEMS: usize = 21;

pub type Mix = [u8; ITEMS];

#[rustfmt::skip]
pub const MIXES: [(u8, Mix); 6] = [
    // id c  v  par head b chr note only w rb fig row cell ms num txt bl attr err odd
    (40, [2, 6, 14, 8, 4, 4, 8, 4, 4, 6, 3, 3, 4, 2, 7, 4, 12, 6, 2, 2, 6]),
    (20, [0, 4, 30, 9, 3, 1, 6, 4, 0, 3, 0, 1, 1, 0, 1, 2, 25, 6, 0, 0, 0]),
    (15, [0, 12, 25, 3, 0, 1, 3, 0, 0, 0, 0, 0, 0, 0, 0, 20, 4, 12, 1, 2, 1]),
    (8, [0, 2, 3, 1, 0, 0, 3, 0, 0, 1, 0, 0, 25, 6, 1, 0, 4, 2, 0, 1, 3]),
    (9, [0, 2, 3, 4, 0, 0, 6, 2, 0, 0, 0, 0, 0, 0, 40, 0, 4, 2, 0, 0, 3]),
    (8, [0, 1, 2, 2, 0, 0, 8, 1, 1, 20, 6, 5, 0, 0, 8, 0, 2, 1, 4, 0, 3]),
];

/// The names that an item needs in the table; an item without names needs none.
const NEEDED: [&[&str]; ITEMS] = [
    &["id"],
    &["c"],
    &["v"],
    &BODY,
    &HEADS,
    &["b"],
    &CHARACTERS,
    &NOTES,
    &NOTE_ONLY,
    &WORDS,
    &["rb"],
    &["fig"],
    &["tr"],
    &CELLS,
    &["qt-s", "qt-e", "zaln-s", "zaln-e", "ts"],
    &NUMBERS,
    &[],
    &[],
    &[],
    &[],
    &[],
];

/// Items that the table knows nothing of are rarer, since all below them is skipped.
pub fn fitting(mix: &Mix, entries: &[Entry<'_>]) -> Mix {
    let known = |names: &[&str]| names.iter().any(|&name| has(entries, name));
    std::array::from_fn(|item| {
        if NEEDED[item].is_empty() || known(NEEDED[item]) {
            mix[item]
        } else {
            mix[item].div_ceil(6)
        }
    })
}

pub fn has(entries: &[Entry<'_>], name: &str) -> bool {
    let names = [name, strip_level_suffix(name)];
    entries.iter().any(|entry| names.contains(&entry.name))
}

impl Layout<'_> {
    pub fn item(&mut self) {
        match self.rng.weighted(&self.mix) {
            0 => self.identification(),
            1 => self.chapter(),
            2 => self.verse(),
            3 => self.paragraph(&BODY),
            4 => self.paragraph(&HEADS),
            5 => self.blank_line(),
            6 => self.character(&CHARACTERS),
            7 => self.note(),
            8 => self.character(&NOTE_ONLY),
            9 => self.word(),
            10 => self.ruby(),
            11 => self.figure(),
            12 => self.row(),
            13 => {
                self.cell(1);
            }
            14 => self.milestone(),
            15 => self.number_marker(),
            16 => self.text(),
            17 => self.blank_text(),
            18 => self.attribute(),
            19 => self.error(),
            _ => self.odd_marker(),
        }
    }

    /// Up to `most` items, mostly few.
    fn items(&mut self, most: usize) {
        for _ in 0..self.rng.below(most + 1) {
            if self.budget == 0 {
                return;
            }
            self.item();
        }
    }

    // --- leaves ---

    pub fn text(&mut self) {
        self.leaf(kind::TEXT, words::text);
    }

    pub fn blank_text(&mut self) {
        self.leaf(kind::TEXT, words::blanks);
    }

    fn attribute(&mut self) {
        self.leaf(kind::ATTRIBUTE, attributes::list);
    }

    fn error(&mut self) {
        self.leaf(kind::ERROR, |rng, out| {
            out.push_str(rng.pick(&["\\", "\\ ", "\\zz*", "\\*", "?", " ", ""]));
        });
    }

    // --- markers ---

    fn paragraph(&mut self, names: &[&str]) {
        let name = self.pick_name(names);
        self.marker(name, Ending::Block, |layout| layout.items(7));
    }

    fn blank_line(&mut self) {
        self.marker("b", Ending::Block, |layout| match layout.rng.below(8) {
            0..2 => {}
            2..4 => layout.blank_text(),
            4 => {
                layout.blank_text();
                layout.verse();
            }
            5 => layout.error(),
            _ => layout.items(3),
        });
    }

    fn character(&mut self, names: &[&str]) {
        let name = self.pick_name(names);
        self.marker(name, Ending::Inline, |layout| {
            layout.text();
            if layout.rng.percent(30) {
                layout.items(3);
            }
            if layout.rng.percent(12) {
                layout.attribute();
            }
        });
    }

    fn note(&mut self) {
        let name = self.pick_name(&NOTES);
        self.marker(name, Ending::Inline, |layout| {
            layout.written_text(" + ");
            for _ in 0..layout.rng.below(3) {
                layout.character(&NOTE_ONLY);
            }
            if layout.rng.percent(25) {
                layout.items(3);
            }
        });
    }

    fn word(&mut self) {
        let name = self.pick_name(&WORDS);
        self.marker(name, Ending::Inline, Self::word_inside);
    }

    fn word_inside(&mut self) {
        match self.rng.below(10) {
            0..2 => {}
            2..4 => self.blank_text(),
            4 => self.items(2),
            _ => self.text(),
        }
        for _ in 0..self.rng.weighted(&[3, 8, 2]) {
            self.attribute();
        }
    }

    fn ruby(&mut self) {
        self.marker("rb", Ending::Inline, Self::word_inside);
    }

    fn figure(&mut self) {
        self.marker("fig", Ending::Inline, Self::word_inside);
    }

    // --- identification ---

    pub fn identification(&mut self) {
        self.marker("id", Ending::Block, |layout| {
            match layout.rng.below(20) {
                0 => return,
                1 => layout.blank_text(),
                2 => layout.items(2),
                3 => layout.attribute(),
                _ => {}
            }
            let code = book_code(layout.rng);
            let rest = layout.rng.pick(&["\n", "", " - A Bible\n", "\u{3000}x"]);
            layout.written_text(&format!(" {code}{rest}"));
        });
    }

    // --- chapters and verses ---

    pub fn chapter(&mut self) {
        let (label, number) = self.counter.chapter(self.rng);
        let place = self.numbered(kind::CHAPTER, "c", &label);
        self.nodes[place].link = number;
        self.numbers_after(0);
    }

    fn verse(&mut self) {
        let label = self.counter.verse(self.rng);
        let place = self.numbered(kind::VERSE, "v", &label);
        self.nodes[place].link = self.rng.below(4) as u32;
        self.numbers_after(2);
    }

    /// A Chapter or Verse with its label in one of the ways that texts have it.
    fn numbered(&mut self, kind: u8, name: &str, label: &str) -> usize {
        let from = self.source.len();
        let name = if self.rng.one_in(50) {
            self.rng.pick(&ODD_NAMES)
        } else {
            name
        };
        let before = match self.rng.below(100) {
            0 => "",
            1 => "\\\\",
            _ => "\\",
        };
        self.source.push_str(before);
        self.source
            .push_str(if self.rng.one_in(100) { "+" } else { "" });
        self.source.push_str(name);
        self.label(label);
        let marker = self.marker_of_numbered(from, name);
        let place = self.push(kind, marker, from);
        self.odd_span(place, 150);
        place
    }

    fn marker_of_numbered(&mut self, from: usize, name: &str) -> u16 {
        if self.rng.one_in(30) {
            return self.rng.below(self.entries.len() + 2) as u16;
        }
        match self.place_of_glued(marker_name(&self.source[from..])) {
            Some(place) => place as u16,
            None => self.marker_of(name),
        }
    }

    fn label(&mut self, label: &str) {
        let (rng, out) = (&mut *self.rng, &mut self.source);
        match rng.below(100) {
            0..80 => {
                words::separator(rng, out);
                out.push_str(label);
                out.push_str(rng.pick(&[" ", " ", "\n", ""]));
            }
            80..90 => {
                out.push_str(label);
                out.push_str(rng.pick(&[" ", "\n", "", " 7", "*"]));
            }
            90..94 => out.push_str(rng.pick(&["", " ", "\n", "\u{A0} ", "|1"])),
            94..97 => {
                words::blanks(rng, out);
                words::separator(rng, out);
                out.push_str(label);
                words::text(rng, out);
            }
            _ => {
                words::blanks(rng, out);
                out.push_str(label);
                words::blanks(rng, out);
            }
        }
    }

    /// Alternate and published numbers directly after their chapter (`own` 0) or verse (`own` 2),
    /// with what may stand between them.
    fn numbers_after(&mut self, own: usize) {
        if !self.rng.percent(30) {
            return;
        }
        for _ in 0..self.rng.from_to(1, 4) {
            match self.rng.below(20) {
                0..5 => self.blank_text(),
                5 => self.error(),
                6 => self.text(),
                7 => self.number_marker(),
                8 if self.rng.one_in(3) => self.attribute(),
                _ => {
                    let name = NUMBERS[own + self.rng.below(2)];
                    self.number(name);
                }
            }
        }
    }

    fn number_marker(&mut self) {
        let name = self.pick_name(&NUMBERS);
        self.number(name);
    }

    fn number(&mut self, name: &str) {
        let place = self.nodes.len();
        self.marker(name, Ending::Inline, |layout| match layout.rng.below(20) {
            0 => {}
            1 => layout.character(&CHARACTERS),
            2 => layout.items(2),
            3..5 => layout.attribute(),
            _ => layout.written_text(" 2"),
        });
        if self.rng.one_in(15) {
            self.share_start(place);
        }
    }

    /// Gives a number the start of another one, and its length or one blank more.
    fn share_start(&mut self, place: usize) {
        let number = |&&other: &&Node| {
            let (start, end) = (other.start as usize, other.end() as usize);
            other.kind == kind::MARKER_OPEN
                && NUMBERS.contains(&marker_name(&self.source[start..end]))
        };
        let others: Vec<Node> = self.nodes.iter().filter(number).copied().collect();
        if self.nodes[place].kind == kind::MARKER_OPEN && !others.is_empty() {
            let other = self.rng.pick(&others);
            let blank_follows = self.source[other.end() as usize..].starts_with(' ');
            let more = blank_follows && self.rng.percent(50);
            self.nodes[place].start = other.start;
            self.nodes[place].len = other.len + u32::from(more);
        }
    }

    // --- tables ---

    fn row(&mut self) {
        self.marker("tr", Ending::Block, |layout| {
            let mut column = 1;
            for _ in 0..layout.rng.below(6) {
                if layout.rng.one_in(10) {
                    layout.items(2);
                }
                column = layout.cell(column);
            }
        });
    }

    /// A cell that is mostly the one expected; gives the column after it.
    fn cell(&mut self, column: usize) -> usize {
        let prefix = self.pick_name(&CELLS);
        let (name, next) = match self.rng.below(100) {
            0..62 => (format!("{prefix}{column}"), column + 1),
            62..75 => {
                let end = column + self.rng.below(3);
                (format!("{prefix}{column}-{end}"), end + 1)
            }
            75..85 => {
                let other = self.rng.below(6);
                (format!("{prefix}{other}"), other + 1)
            }
            85..99 => (self.rng.pick(&ODD_CELLS).to_string(), column),
            _ if self.rng.one_in(3) => (format!("{prefix}4294967295"), column),
            _ => (format!("{prefix}{column}-4294967294"), 4_294_967_295),
        };
        self.marker(&name, Ending::Inline, |layout| match layout.rng.below(4) {
            0 => {}
            1 => layout.items(2),
            _ => layout.text(),
        });
        next
    }

    // --- milestones ---

    fn milestone(&mut self) {
        let name = self.rng.pick(&BASES).to_string() + self.rng.pick(&SUFFIXES);
        self.marker(&name, Ending::Milestone, |layout| {
            match layout.rng.below(10) {
                0..3 => layout.attribute(),
                3 => layout.items(2),
                _ => {}
            }
        });
    }

    // --- the rest ---

    /// An entry of the table under its own name or with a level, or a name that has no entry.
    fn odd_marker(&mut self) {
        let name = if !self.entries.is_empty() && self.rng.percent(70) {
            let entry = self.rng.pick(&self.entries);
            let level = self.rng.pick(&["", "", "", "1", "2", "1-2", "9z"]);
            format!("{}{level}", entry.name)
        } else {
            self.rng.pick(&UNKNOWN).to_string()
        };
        let ending = self
            .rng
            .pick(&[Ending::Block, Ending::Inline, Ending::Milestone]);
        self.marker(&name, ending, |layout| layout.items(4));
    }

    /// Nesting near the limit, with a few items at the bottom.
    pub fn nest(&mut self) {
        let levels = match self.rng.below(4) {
            0 => self.rng.from_to(8, 50),
            1 => self.rng.from_to(DEEPEST - 4, DEEPEST - 1),
            2 => DEEPEST,
            _ => self.rng.from_to(DEEPEST, DEEPEST + 2),
        };
        let deepest = self.deepest;
        self.deepest = levels.max(deepest);
        self.nested(levels);
        self.deepest = deepest;
    }

    fn nested(&mut self, levels: usize) {
        if levels == 0 {
            self.budget += 4;
            return self.items(4);
        }
        let (name, ending) = match self.rng.below(8) {
            0 => ("p", Ending::Block),
            1 => (self.pick_name(&NOTES), Ending::Inline),
            _ => (self.pick_name(&CHARACTERS), Ending::Inline),
        };
        self.marker(name, ending, |layout| layout.nested(levels - 1));
    }
}
