//! Writes a book: its text and the tape that a parser makes of it.

use super::markers::{MARKERS, marker};
use super::words::{Word, Words};
use crate::document::{Document, kind};
use crate::refusals::LARGEST_SOURCE;
use crate::samples::Builder;

/// What a verse is made of.
#[derive(Clone, Copy, Debug, PartialEq, Eq)]
pub enum Style {
    /// Text, here and there a note or a character marker.
    Plain,
    /// A mistake in every verse.
    Faulty,
    /// Every word with its attributes.
    WordLevel,
}

/// How a book is set.
#[derive(Clone, Copy, Debug, PartialEq, Eq)]
pub enum Manner {
    /// Paragraphs of a few verses.
    Prose,
    /// Prose with lists and tables.
    Lists,
    /// Prose with the words of Jesus marked.
    Gospel,
    /// Every verse in several lines.
    Poetry,
    /// Chapters of prose and of poetry in turn.
    Mixed,
}

/// A place in a book: chapter and verse.
type Place = (usize, usize);

/// The word that stands for the name of God.
const LORD: Word = Word {
    before: "",
    word: "Lord",
    after: "",
};

pub struct Writer {
    builder: Builder,
    /// Text since the last marker: a parser makes one node of it.
    loose: String,
    words: Words,
    style: Style,
    manner: Manner,
    /// Whether attributes have Hebrew words, or else Greek ones.
    hebrew: bool,
}

/// How far a book is written.
#[derive(Clone, Copy)]
pub struct Mark {
    source: usize,
    nodes: usize,
}

// Markers and text.
impl Writer {
    pub fn new(style: Style, manner: Manner, hebrew: bool, seed: u64) -> Writer {
        Writer {
            builder: Builder::default(),
            loose: String::new(),
            words: Words::new(seed),
            style,
            manner,
            hebrew,
        }
    }

    fn put(&mut self, text: &str) {
        self.loose.push_str(text);
    }

    fn flush(&mut self) {
        if !self.loose.is_empty() {
            self.builder.text(&self.loose);
            self.loose.clear();
        }
    }

    fn open(&mut self, name: &str) {
        self.flush();
        self.builder.open(marker(name), &format!("\\{name}"));
    }

    fn close(&mut self, name: &str) {
        self.flush();
        self.builder
            .close(kind::MARKER_CLOSE, &format!("\\{name}*"));
    }

    fn end(&mut self) {
        self.flush();
        self.builder.end();
    }

    fn attribute(&mut self, text: &str) {
        self.flush();
        self.builder.leaf(kind::ATTRIBUTE, 0, text, 0);
    }

    fn numbered(&mut self, kind: u8, name: &str, label: &str, number: usize) {
        self.flush();
        self.builder.leaf(kind, marker(name), label, number as u32);
    }

    /// A paragraph of one line.
    fn line(&mut self, name: &str, text: &str) {
        self.open(name);
        if !text.is_empty() {
            self.put(" ");
        }
        self.put(text);
        self.put("\n");
        self.end();
    }

    /// A marker with its close around a text.
    fn inline(&mut self, name: &str, text: &str) {
        self.open(name);
        self.put(&format!(" {text}"));
        self.close(name);
    }

    fn word(&mut self, word: &Word) {
        self.put(word.before);
        if self.style == Style::WordLevel {
            let attributes = self.words.attributes(self.hebrew);
            self.open("w");
            self.put(&format!(" {}", word.word));
            self.attribute(&attributes);
            self.close("w");
        } else {
            self.put(word.word);
        }
        self.put(word.after);
    }

    fn all(&mut self, words: &[Word]) {
        words.iter().for_each(|word| self.word(word));
    }
}

// What stands inside a verse.
impl Writer {
    /// A marker that ends where the next one of its note begins.
    fn part(&mut self, name: &str, text: &str) {
        self.open(name);
        self.put(&format!(" {text} "));
        self.end();
    }

    fn note(&mut self, (chapter, verse): Place) {
        let (quoted, text) = (self.words.plain(2), self.words.plain(7));
        self.open("f");
        self.put(" + ");
        self.part("fr", &format!("{chapter}:{verse}"));
        self.part("fq", &quoted);
        self.part("ft", &text);
        self.close("f");
    }

    fn cross_reference(&mut self, (chapter, verse): Place) {
        let other = self.words.rng.from_to(1, 50);
        self.open("x");
        self.put(" - ");
        self.part("xo", &format!("{chapter}:{verse}"));
        self.part("xt", &format!("Gen {other}:3; Isa {other}:14–16"));
        self.close("x");
    }

    /// A marker with its close around words.
    fn span(&mut self, name: &str, words: &[Word]) {
        self.open(name);
        self.put(" ");
        self.all(words);
        self.close(name);
        self.put(" ");
    }

    fn phrase(&mut self, name: &str, count: usize) {
        let words = self.words.phrase(count);
        self.span(name, &words);
    }

    /// Words of Jesus.
    fn speech(&mut self) {
        let mut words = self.words.phrase(12);
        words[0].before = "“";
        words[11].after = ",”";
        self.span("wj", &words);
    }

    /// What stands between the words of a verse, or nothing.
    fn inset(&mut self, place: Place) {
        let gospel = self.manner == Manner::Gospel;
        match self.words.rng.below(100) {
            0..9 => self.note(place),
            9..23 => self.cross_reference(place),
            23..63 if gospel => self.speech(),
            23..45 if self.hebrew => self.span("nd", &[LORD]),
            63..68 => self.phrase("add", 2),
            68..70 => self.phrase("pn", 1),
            _ => {}
        }
    }

    /// One of several mistakes, in turn.
    fn mistake(&mut self, verse: usize) {
        match verse % 4 {
            0 => self.inline("ft", "a note’s text outside a note"),
            1 => {
                self.open("w");
                self.put(" word");
                self.attribute("|lemma=word");
                self.close("w");
            }
            2 => self.inline("va", "3"),
            _ => self.inline("w", ""),
        }
    }

    fn label(&self, verse: usize) -> String {
        match self.style {
            Style::Faulty if verse.is_multiple_of(3) => format!("\\v {:02} ", verse + 1),
            _ => format!("\\v {verse} "),
        }
    }

    fn number(&mut self, verse: usize) {
        let label = self.label(verse);
        self.numbered(kind::VERSE, "v", &label, verse);
    }

    /// Words with something between them.
    fn parted(&mut self, words: &[Word], place: Place) {
        let first = self.words.rng.from_to(2, words.len() - 2);
        self.all(&words[..first]);
        self.inset(place);
        self.all(&words[first..]);
        if self.style == Style::Faulty {
            self.mistake(place.1);
        }
    }
}

// Verses and chapters.
impl Writer {
    fn prose_verse(&mut self, place: Place) {
        let count = self.words.rng.from_to(13, 37);
        let words = self.words.sentence(count);
        self.number(place.1);
        self.parted(&words, place);
        self.put("\n");
    }

    /// A verse of two to five lines.
    fn poem_verse(&mut self, place: Place) {
        const WORDS: usize = 7;
        let lines = self.words.rng.from_to(2, 5);
        let words = self.words.sentence(WORDS * lines);
        for (line, words) in words.chunks(WORDS).enumerate() {
            self.open(["q1", "q2"][line % 2]);
            self.put(" ");
            if line == 0 {
                self.number(place.1);
                self.parted(words, place);
            } else {
                self.all(words);
            }
            if line + 1 == lines && place.1.is_multiple_of(20) {
                self.put(" ");
                self.inline("qs", "Selah.");
            }
            self.put("\n");
            self.end();
        }
    }

    fn list_verse(&mut self, place: Place) {
        self.open("li1");
        self.put(" ");
        self.prose_verse(place);
        self.end();
    }

    /// Rows of names and numbers. The table has cells as character markers, so that no verse can stand in one.
    fn rows(&mut self) {
        for row in 1..=4 {
            let name = self.words.plain(2);
            self.open("tr");
            self.put(" ");
            for (cell, text) in [("tc1", name), ("tcr2", format!("{}", 37 * row))] {
                self.open(cell);
                self.put(&format!(" {text} "));
                self.end();
            }
            self.put("\n");
            self.end();
        }
    }

    fn heading(&mut self) {
        let text = self.words.plain(4);
        self.line("s1", &text);
        if self.words.rng.one_in(4) {
            self.line("r", "(Genesis 1:1–5; Isaiah 40:3)");
        }
    }

    fn paragraph(&mut self, chapter: usize, verses: std::ops::RangeInclusive<usize>) {
        let set = self.words.rng.below(8);
        if self.manner == Manner::Lists && set < 2 {
            verses.for_each(|verse| self.list_verse((chapter, verse)));
            if set == 0 {
                self.rows();
            }
            return;
        }
        self.open(if set == 7 { "m" } else { "p" });
        self.put("\n");
        verses.for_each(|verse| self.prose_verse((chapter, verse)));
        self.end();
    }

    fn prose(&mut self, chapter: usize, verses: usize) {
        let mut verse = 1;
        while verse <= verses {
            if verse == 1 || self.words.rng.one_in(4) {
                self.heading();
            }
            let last = verses.min(verse + self.words.rng.from_to(1, 5));
            self.paragraph(chapter, verse..=last);
            verse = last + 1;
        }
    }

    fn poem(&mut self, chapter: usize, verses: usize) {
        let title = self.words.plain(6);
        self.heading();
        self.line("d", &title);
        for verse in 1..=verses {
            self.poem_verse((chapter, verse));
            if self.words.rng.one_in(5) && verse < verses {
                self.line("b", "");
            }
        }
    }

    fn is_poem(&self, chapter: usize) -> bool {
        match self.manner {
            Manner::Poetry => true,
            Manner::Mixed => chapter.is_multiple_of(2),
            _ => false,
        }
    }

    fn chapter_number(&mut self, chapter: usize) {
        let label = format!("\\c {chapter}\n");
        self.numbered(kind::CHAPTER, "c", &label, chapter);
    }
}

// A whole book.
impl Writer {
    /// What stands before the first chapter.
    pub fn front(&mut self, code: &str) {
        self.line("id", &format!("{code} - a book for measuring"));
        self.line("usfm", "3.1");
        self.line("ide", "UTF-8");
        for name in ["h", "toc1", "toc2", "toc3", "mt1"] {
            self.line(name, code);
        }
        self.line("imt1", "Introduction");
        let text = self.words.plain(60);
        self.line("ip", &text);
        self.line("iot", "Outline");
        for number in 1..=4 {
            let text = self.words.plain(4);
            self.open("io1");
            self.put(&format!(" {text} "));
            self.inline("ior", &format!("{number}:1–{}:10", number + 1));
            self.put("\n");
            self.end();
        }
    }

    pub fn chapter(&mut self, chapter: usize, verses: usize) {
        self.chapter_number(chapter);
        if self.is_poem(chapter) {
            self.poem(chapter, verses);
        } else {
            self.prose(chapter, verses);
        }
    }

    /// One verse in a paragraph or lines of its own, with its chapter's beginning if it is the first.
    pub fn lone_verse(&mut self, chapter: usize, verse: usize) {
        if verse == 1 {
            self.chapter_number(chapter);
            self.heading();
        }
        if self.is_poem(chapter) {
            self.poem_verse((chapter, verse));
        } else {
            self.paragraph(chapter, verse..=verse);
        }
    }

    /// Where the book stands between two paragraphs.
    pub fn mark(&self) -> Mark {
        assert!(self.builder.open.is_empty() && self.loose.is_empty());
        Mark {
            source: self.builder.source.len(),
            nodes: self.builder.nodes.len(),
        }
    }

    /// Takes back what was written after a mark.
    pub fn back(&mut self, mark: Mark) {
        self.builder.source.truncate(mark.source);
        self.builder.nodes.truncate(mark.nodes);
    }

    /// Whether the book has at most so many nodes, and no more bytes than number 2 lets pass.
    pub fn fits(&self, nodes: usize) -> bool {
        self.builder.nodes.len() <= nodes && self.builder.source.len() <= LARGEST_SOURCE
    }

    /// The book as a document; the writer is empty again.
    pub fn finish(&mut self) -> Document {
        std::mem::take(&mut self.builder).under(&MARKERS)
    }
}
