//! Tapes for short texts by hand. The texts are well formed, so the reader corrects nothing.

use super::Builder;
use crate::document::{Document, Entry, kind};
use crate::generate::STANDARD;
use crate::parts::strip_level_suffix;
use crate::refusals::{is_blank, marker_name};

struct Reader<'a> {
    rest: &'a str,
    builder: Builder,
    /// The standard markers that the text uses, in the order of their first use.
    table: Vec<Entry<'static>>,
}

/// The document of a text, under a table of the standard markers that it uses.
pub fn read(text: &str) -> Document {
    let mut reader = Reader {
        rest: text,
        builder: Builder::default(),
        table: Vec::new(),
    };
    while !reader.rest.is_empty() {
        reader.step();
    }
    reader.builder.under(&reader.table)
}

impl<'a> Reader<'a> {
    fn take(&mut self, len: usize) -> &'a str {
        let (taken, rest) = self.rest.split_at(len);
        self.rest = rest;
        taken
    }

    fn step(&mut self) {
        if self.rest.starts_with('\\') {
            self.marker();
        } else if self.rest.starts_with('|') {
            let taken = self.take(attribute_end(self.rest));
            self.builder.leaf(kind::ATTRIBUTE, 0, taken, 0);
        } else {
            let end = self.rest.find(['\\', '|']).unwrap_or(self.rest.len());
            let taken = self.take(end);
            self.builder.text(taken);
        }
    }

    fn marker(&mut self) {
        let name = marker_name(self.rest);
        let len = 1 + usize::from(self.rest[1..].starts_with('+')) + name.len();
        if self.rest[len..].starts_with('*') {
            let taken = self.take(len + 1);
            self.builder.close(kind::MARKER_CLOSE, taken);
            return;
        }
        let marker = self.number_of(name);
        match self.table.get(marker as usize).map(|entry| entry.category) {
            Some(1) => self.numbered(kind::CHAPTER, marker, len),
            Some(2) => self.numbered(kind::VERSE, marker, len),
            Some(0 | 3) => self.block(marker, len),
            _ => {
                let taken = self.take(len);
                self.builder.open(marker, taken);
            }
        }
    }

    fn block(&mut self, marker: u16, len: usize) {
        self.end_block();
        let taken = self.take(len);
        self.builder.open(marker, taken);
    }

    fn end_block(&mut self) {
        while !self.builder.open.is_empty() {
            self.builder.end();
        }
    }

    /// A chapter or verse runs to the blank after its number.
    fn numbered(&mut self, kind: u8, marker: u16, len: usize) {
        if kind == kind::CHAPTER {
            self.end_block();
        }
        let after = &self.rest[len..];
        let word = after.trim_start_matches(is_blank);
        let end = word
            .find(|c| is_blank(c) || c == '\\')
            .unwrap_or(word.len());
        let blank = word[end..].chars().next().filter(|&c| is_blank(c));
        let number = leading_number(&word[..end]);
        let whole = len + (after.len() - word.len()) + end + blank.map_or(0, char::len_utf8);
        let taken = self.take(whole);
        self.builder.leaf(kind, marker, taken, number);
    }

    /// The number of a name in the table, which grows by it where it is a standard marker.
    fn number_of(&mut self, name: &str) -> u16 {
        let glued = match name.as_bytes() {
            [b'v' | b'c', b'0'..=b'9', ..] => &name[..1],
            _ => name,
        };
        for name in [name, strip_level_suffix(name), glued] {
            if let Some(place) = self.table.iter().position(|entry| entry.name == name) {
                return place as u16;
            }
            if let Some(entry) = STANDARD.iter().find(|entry| entry.name == name) {
                self.table.push(*entry);
                return self.table.len() as u16 - 1;
            }
        }
        u16::MAX
    }
}

/// An attribute list runs to the next backslash that escapes no quote.
fn attribute_end(text: &str) -> usize {
    let ends = |&(at, _): &(usize, &str)| !text[at..].starts_with("\\\"");
    let end = text.match_indices('\\').find(ends);
    end.map_or(text.len(), |(at, _)| at)
}

fn leading_number(label: &str) -> u32 {
    let end = label
        .find(|c: char| !c.is_ascii_digit())
        .unwrap_or(label.len());
    label[..end].parse().unwrap_or(0)
}

#[cfg(test)]
mod tests {
    use super::*;
    use crate::refusals::refusal;
    use crate::samples;

    #[test]
    fn the_listing_example_is_read() {
        let read = read("\\id GEN\n\\c 1\n\\p\n\\v 2 Word");
        let spans: Vec<(u8, u32, u32)> = read
            .nodes()
            .skip(1)
            .map(|node| (node.kind, node.start, node.len))
            .collect();
        let expected = [
            (kind::MARKER_OPEN, 0, 3),
            (kind::TEXT, 3, 5),
            (kind::BLOCK_END, 8, 0),
            (kind::CHAPTER, 8, 5),
            (kind::MARKER_OPEN, 13, 2),
            (kind::TEXT, 15, 1),
            (kind::VERSE, 16, 5),
            (kind::TEXT, 21, 4),
            (kind::BLOCK_END, 25, 0),
        ];
        assert_eq!(spans, expected);
    }

    #[test]
    fn attribute_lists_keep_escaped_quotes() {
        let read = read("\\w a|x=\"\\\"\"\\w*");
        let list = read.nodes().find(|node| node.kind == kind::ATTRIBUTE);
        assert_eq!(list.map(|node| (node.start, node.len)), Some((4, 7)));
    }

    #[test]
    fn every_document_by_hand_is_accepted() {
        let read = samples::TEXTS.iter().map(|text| read(text));
        for document in read.chain(samples::shaped()) {
            let n = document.node_count();
            assert_eq!(refusal(&document, n, n), None, "{}", document.to_hex());
        }
    }
}
