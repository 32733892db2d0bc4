//! Texts from a seed: pieces of every kind one behind another, mostly so that a reader takes them, then part of them damaged.

use super::Draft;
use crate::document::{CATEGORIES, Entry};
use crate::generate::damage::{damage_source, damage_table};
use crate::generate::labels::Counter;
use crate::generate::{attributes, names, tables, words};
use crate::refusals::LARGEST_SOURCE;
use crate::rng::Rng;

/// The text and table of this seed, the same on every machine.
pub fn draft(seed: u64) -> Draft {
    let mut rng = Rng::new(seed.rotate_left(31));
    let entries = tables::choose(&mut rng);
    let text = match rng.percent(8) {
        true => soup(&mut rng, &entries),
        false => Writer::new(&mut rng, &entries).whole(),
    };
    let mut draft = Draft::new(&entries, text);
    if rng.percent(25) {
        damage(&mut rng, &mut draft.text);
    }
    if rng.percent(3) {
        damage_table(&mut rng, &mut draft.table);
    }
    if rng.one_in(2_000) {
        draft.text.resize(LARGEST_SOURCE + rng.below(2), b' ');
    }
    draft
}

/// The nodes that the list of this seed holds, for a text that needs `n`: enough, or at times too few.
pub fn room(seed: u64, n: usize) -> usize {
    let mut rng = Rng::new(!seed.rotate_left(31));
    match rng.below(12) {
        0 => n.saturating_sub(1),
        1 => rng.below(n + 1),
        2 => 0,
        3..8 => n,
        _ => n + rng.below(9),
    }
}

/// A change or two: bytes of another value, cut, more or fewer, or a part that stands there again or no longer.
fn damage(rng: &mut Rng, text: &mut Vec<u8>) {
    for _ in 0..rng.from_to(1, 2) {
        let from = rng.below(text.len() + 1);
        let to = text.len().min(from + rng.below(20));
        match rng.below(4) {
            0 => {
                let part = text[from..to].to_vec();
                let at = rng.below(text.len() + 1);
                text.splice(at..at, part);
            }
            1 => _ = text.drain(from..to),
            _ => damage_source(rng, text),
        }
    }
}

const SIGNS: [&str; 14] = [
    "\\", "\\", "\\", "*", "\\*", "|", "+", " ", "\n", "1", "\u{3000}", "\u{200B}", "é", "-s",
];

/// Signs and names in no order.
fn soup(rng: &mut Rng, entries: &[Entry<'_>]) -> String {
    let mut text = String::new();
    for _ in 0..rng.below(16) {
        if entries.is_empty() || rng.percent(60) {
            text.push_str(rng.pick(&SIGNS));
        } else {
            text.push('\\');
            text.push_str(rng.pick(entries).name);
        }
    }
    text
}

const IDENTIFICATION: usize = 0;
const CHAPTER: usize = 1;
const VERSE: usize = 2;
const PARAGRAPH: usize = 3;
const CHARACTER: usize = 4;
const NOTE: usize = 5;
const MILESTONE: usize = 6;
const OTHER: usize = 7;

const LEVELS: [&str; 7] = ["1", "1", "2", "12", "1-2", "0", "01-9"];

struct Writer<'a> {
    rng: &'a mut Rng,
    /// By category, the names that `lookup` finds there.
    names: [Vec<&'static str>; CATEGORIES.len()],
    text: String,
    /// The names of what is open, as written, the innermost last.
    open: Vec<String>,
    counter: Counter,
}

impl<'a> Writer<'a> {
    fn new(rng: &'a mut Rng, entries: &[Entry<'static>]) -> Writer<'a> {
        let mut names: [Vec<&str>; CATEGORIES.len()] = Default::default();
        for (place, entry) in entries.iter().enumerate() {
            let is_first = entries[..place]
                .iter()
                .all(|other| other.name != entry.name);
            if is_first {
                names[entry.category].push(entry.name);
            }
        }
        let counter = Counter::new(rng);
        Writer {
            rng,
            names,
            text: String::new(),
            open: Vec::new(),
            counter,
        }
    }

    fn whole(mut self) -> String {
        let pieces = match self.rng.below(20) {
            0 => self.rng.below(2),
            1..15 => self.rng.from_to(1, 14),
            15..19 => self.rng.from_to(1, 50),
            _ => self.rng.from_to(1, 300),
        };
        for _ in 0..pieces {
            self.piece();
        }
        if self.rng.percent(94) {
            self.close_all();
        }
        self.text
    }

    fn piece(&mut self) {
        match self
            .rng
            .weighted(&[40, 12, 10, 32, 12, 40, 50, 46, 16, 1, 8])
        {
            0 => self.words(),
            1 => words::blanks(self.rng, &mut self.text),
            2 => self.bars(),
            3 => self.block(),
            4 => self.number(CHAPTER),
            5 => self.number(VERSE),
            6 => self.open(),
            7 => self.close(),
            8 => self.milestone(),
            9 => (0..self.rng.from_to(50, 75)).for_each(|_| self.open()),
            _ => self.fault(),
        }
    }

    fn put(&mut self, text: &str) {
        self.text.push_str(text);
    }

    /// A name of one of these categories, if the table has any.
    fn name(&mut self, categories: &[usize]) -> Option<&'static str> {
        let names: Vec<&str> = categories
            .iter()
            .flat_map(|&category| self.names[category].iter().copied())
            .collect();
        (!names.is_empty()).then(|| self.rng.pick(&names))
    }

    /// The name, in one of four with a level.
    fn leveled(&mut self, name: &str) -> String {
        let level = match self.rng.one_in(4) {
            true => self.rng.pick(&LEVELS),
            false => "",
        };
        format!("{name}{level}")
    }

    /// A backslash, at times a plus, and the name.
    fn marker(&mut self, name: &str) {
        let backslash = if self.rng.one_in(8) { "\\+" } else { "\\" };
        self.put(backslash);
        self.put(name);
    }

    /// A run that is made so. A backslash in it begins a marker, mostly an unknown one, and is mostly left out.
    fn run(&mut self, make: fn(&mut Rng, &mut String)) -> String {
        let mut run = String::new();
        make(self.rng, &mut run);
        if self.rng.percent(96) {
            run.retain(|c| c != '\\');
        }
        run
    }

    fn words(&mut self) {
        let words = self.run(words::text);
        self.put(&words);
    }

    fn bars(&mut self) {
        let list = self.run(attributes::list);
        self.put(&list);
    }

    fn block(&mut self) {
        if self.rng.percent(97) {
            self.close_all();
        }
        if let Some(name) = self.name(&[IDENTIFICATION, PARAGRAPH]) {
            let name = self.leveled(name);
            self.marker(&name);
        }
    }

    fn open(&mut self) {
        if let Some(name) = self.name(&[CHARACTER, CHARACTER, NOTE]) {
            let name = match self.open.last() {
                Some(innermost) if self.rng.one_in(12) => innermost.clone(),
                _ => self.leveled(name),
            };
            self.marker(&name);
            self.open.push(name);
        }
        match self.rng.below(4) {
            0 => self.bars(),
            1 => {}
            _ => self.words(),
        }
    }

    fn close(&mut self) {
        if let Some(name) = self.open.pop() {
            self.marker(&name);
            self.put("*");
        }
    }

    fn close_all(&mut self) {
        while !self.open.is_empty() {
            self.close();
        }
    }

    fn milestone(&mut self) {
        let Some(name) = self.name(&[MILESTONE]) else {
            return;
        };
        let name = self.leveled(name);
        self.marker(&name);
        if self.rng.percent(60) {
            match self.rng.below(3) {
                0 => self.put(" "),
                1 => {}
                _ => words::blanks(self.rng, &mut self.text),
            }
            let list = self.run(attributes::list);
            if !list.starts_with('|') {
                self.put("|");
            }
            self.put(&list);
        }
        self.put("\\*");
    }

    fn number(&mut self, category: usize) {
        if category == CHAPTER && self.rng.percent(97) {
            self.close_all();
        }
        let Some(name) = self.name(&[category]) else {
            return;
        };
        self.marker(name);
        let label = match category {
            CHAPTER => self.counter.chapter(self.rng).0,
            _ => self.counter.verse(self.rng),
        };
        let can_be_glued = label.starts_with(|c: char| c.is_ascii_digit());
        match self.rng.below(20) {
            0..4 if can_be_glued => {}
            0..12 => self.put(" "),
            12..14 => self.put("\n"),
            14..18 => words::blanks(self.rng, &mut self.text),
            18 => return,
            _ => return self.put("|"),
        }
        if self.rng.percent(92) {
            self.put(&label);
        }
        let behind = match self.rng.below(20) {
            0..12 => " ",
            12..16 => "\n",
            16 => "|x ",
            17 => "* ",
            _ => "",
        };
        self.put(behind);
    }
}

// What a reader turns back.
impl Writer<'_> {
    fn fault(&mut self) {
        match self.rng.below(13) {
            0 => {
                let any: Vec<usize> = (0..CATEGORIES.len()).collect();
                if let Some(name) = self.name(&any) {
                    self.marker(name);
                    self.put("*");
                }
            }
            1 => {
                if let Some(outermost) = self.open.first().cloned() {
                    self.marker(&outermost);
                    self.put("*");
                }
            }
            2 => {
                if let Some(innermost) = self.open.last().cloned() {
                    let level = self.rng.pick(&LEVELS);
                    self.marker(&format!("{innermost}{level}*"));
                }
            }
            3 => self.put("\\*"),
            4..6 => {
                let name = self.rng.pick(&names::UNKNOWN);
                let behind = self.rng.pick(&["", " ", "*"]);
                self.marker(name);
                self.put(behind);
            }
            6..8 => {
                let behind = self
                    .rng
                    .pick(&[" ", "|", "\\", "+", "+*", "+ ", "\u{2028}"]);
                self.put("\\");
                self.put(behind);
            }
            8 => {
                if let Some(name) = self.name(&[OTHER]) {
                    let behind = self.rng.pick(&["", " ", "*"]);
                    self.marker(name);
                    self.put(behind);
                }
            }
            9 => {
                if let Some(name) = self.name(&[PARAGRAPH, CHARACTER]) {
                    self.put("\\++");
                    self.put(name);
                }
            }
            10 => {
                // Neither a close nor a fault, but the open stays open.
                if let Some(innermost) = self.open.last().cloned() {
                    self.marker(&innermost);
                    self.put(" *");
                }
            }
            _ => self.bad_milestone(),
        }
    }

    fn bad_milestone(&mut self) {
        const BEHIND: [&str; 12] = [
            "", " ", " \\*", "\n\\*", "x\\*", " x\\*", " x|a\\*", "|a", "|a\\zz ", "\\p ", "\\+*",
            "\\\\*",
        ];
        if let Some(name) = self.name(&[MILESTONE]) {
            let behind = self.rng.pick(&BEHIND);
            self.marker(name);
            self.put(behind);
        }
    }
}
