//! Document 02's reader from a text and a table to a tape, with numbers 16 to 18, plainly, and what read-exercise prints.

use std::collections::HashMap;

use crate::document::{CATEGORIES, Entry, Node, entries, kind};
use crate::listing::{LARGEST_FILE, refused_lines};
use crate::parts::strip_level_suffix;
use crate::refusals::{is_blank, marker_name, source_refusal, table_refusal};

/// A number that turns a text back, with its place.
pub type Refused = (u32, u64);

/// The nodes of a text, or the number that turns it back with its place. The node list has room for so many nodes.
pub fn read(table: &[u8], text: &[u8], room: usize) -> Result<Vec<Node>, Refused> {
    // "Answers, after 1 to 3"
    if let Some(refused) = table_refusal(table).or_else(|| source_refusal(text)) {
        return Err(refused);
    }
    let text = std::str::from_utf8(text).expect("number 3 comes before");
    let entries = entries(table).expect("number 1 comes before");
    let nodes = Reader::new(&entries, text).nodes()?;

    // "18 when the node list is too short, place the nodes needed"
    if nodes.len() > room {
        return Err((18, nodes.len() as u64));
    }
    Ok(nodes)
}

/// The nodes that the program's list holds.
const HELD: usize = 65_537;

/// What the program prints for these two files.
pub fn printed(table: &[u8], text: &[u8]) -> Vec<u8> {
    if table.len() > LARGEST_FILE || text.len() > LARGEST_FILE {
        return b"verdict=toolarge\n".to_vec();
    }
    match read(table, text, HELD) {
        Ok(nodes) => nodes.into_iter().flat_map(Node::to_bytes).collect(),
        Err((number, place)) => refused_lines(number.into(), place).into_bytes(),
    }
}

struct Reader<'a> {
    entries: &'a [Entry<'a>],
    /// "First equal name counts."
    markers: HashMap<&'a str, u16>,
    text: &'a str,
    /// Where the last piece ended.
    at: usize,
    nodes: Vec<Node>,
    /// The node of the open block.
    block: Option<usize>,
    /// The open characters and notes, the innermost last: node, and name as written.
    open: Vec<(usize, &'a str)>,
}

/// A marker as it is written at a backslash.
#[derive(Clone, Copy)]
struct Written<'a> {
    name: &'a str,
    /// Backslash, `+` if any, and name.
    len: usize,
    marker: u16,
}

impl<'a> Reader<'a> {
    fn new(entries: &'a [Entry<'a>], text: &'a str) -> Reader<'a> {
        let mut markers = HashMap::new();
        for (entry, marker) in entries.iter().zip(0..) {
            markers.entry(entry.name).or_insert(marker);
        }
        Reader {
            entries,
            markers,
            text,
            at: 0,
            nodes: Vec::new(),
            block: None,
            open: Vec::new(),
        }
    }

    /// Pieces are taken in the text's order, and a milestone that isn't closed is turned back where it begins: so the first fault
    /// is that of the earliest place.
    fn nodes(mut self) -> Result<Vec<Node>, Refused> {
        self.nodes.push(Node {
            kind: kind::ROOT,
            len: self.text.len() as u32,
            ..Node::default()
        });
        while !self.rest().is_empty() {
            match self.rest().starts_with('\\') {
                true => self.marker_or_close()?,
                false => self.run(),
            }
        }
        self.end_block()?;
        self.nodes[0].link = self.nodes.len() as u32;
        Ok(self.nodes)
    }

    fn rest(&self) -> &'a str {
        &self.text[self.at..]
    }

    /// A fault at the piece that begins here.
    fn refused(&self, number: u32) -> Result<(), Refused> {
        Err((number, self.at as u64))
    }

    /// A node of the next so many bytes. Its number is given back.
    fn put(&mut self, kind: u8, marker: u16, len: usize, link: u32) -> usize {
        self.nodes.push(Node {
            kind,
            flags: 0,
            marker,
            start: self.at as u32,
            len: len as u32,
            link,
        });
        self.at += len;
        self.nodes.len() - 1
    }

    /// A Text or an Attribute: "an empty run is no node"
    fn put_some(&mut self, kind: u8, len: usize) {
        if len > 0 {
            self.put(kind, 0, len, 0);
        }
    }

    /// A close of so many bytes for the node of an open.
    fn put_close(&mut self, kind: u8, open: usize, len: usize) {
        let close = self.put(kind, self.nodes[open].marker, len, 0);
        self.nodes[open].link = close as u32;
    }

    /// From here to the next backslash or the end.
    fn run(&mut self) {
        let len = until(self.rest(), |c| c == '\\');
        let bar = until(&self.rest()[..len], |c| c == '|');

        // "From `|` to the next backslash is an Attribute inside an open character, note or milestone, and elsewhere one Text
        // with any run before it. Other runs are Text."
        let text = if self.open.is_empty() { len } else { bar };
        self.put_some(kind::TEXT, text);
        self.put_some(kind::ATTRIBUTE, len - text);
    }

    fn marker_or_close(&mut self) -> Result<(), Refused> {
        let rest = self.rest();

        // "`\*` is a close, no marker": a close without its open, where no milestone has taken it.
        if rest.starts_with("\\*") {
            return self.refused(17);
        }

        // "16 for an unknown marker [..] or one of category other, place its backslash"
        let name = marker_name(rest);
        let Some(marker) = self.lookup(name) else {
            return self.refused(16);
        };
        let category = CATEGORIES[self.entries[marker as usize].category];
        if category == "other" {
            return self.refused(16);
        }

        let plus = usize::from(rest.starts_with("\\+"));
        let len = 1 + plus + name.len();
        let written = Written { name, len, marker };
        if rest[len..].starts_with('*') {
            return self.close(written);
        }
        match category {
            "identification" | "paragraph" => self.block(written)?,
            "chapter" => {
                self.end_block()?;
                self.number(kind::CHAPTER, written);
            }
            "verse" => self.number(kind::VERSE, written),
            "milestone" => self.milestone(written)?,
            "character" | "note" => {
                let node = self.put(kind::MARKER_OPEN, marker, len, 0);
                self.open.push((node, name));
            }
            _ => unreachable!("a category is one of these"),
        }
        Ok(())
    }

    /// "`lookup`: exact name; else without `strip_level_suffix`; else `v` or `c` before a digit."
    fn lookup(&self, name: &str) -> Option<u16> {
        let glued = match name.as_bytes() {
            [b'v' | b'c', b'0'..=b'9', ..] => &name[..1],
            _ => name,
        };
        let names = [name, strip_level_suffix(name), glued];
        names
            .iter()
            .find_map(|name| self.markers.get(name).copied())
    }

    /// "Character and note markers close by `\name*` of their own name"
    fn close(&mut self, written: Written<'a>) -> Result<(), Refused> {
        match self.open.last() {
            Some(&(open, name)) if name == written.name => {
                self.open.pop();
                self.put_close(kind::MARKER_CLOSE, open, written.len + 1);
                Ok(())
            }
            // "17 for a close without its open innermost"
            _ => self.refused(17),
        }
    }

    /// "A paragraph or identification marker opens a block"
    fn block(&mut self, written: Written<'a>) -> Result<(), Refused> {
        self.end_block()?;
        let node = self.put(kind::MARKER_OPEN, written.marker, written.len, 0);
        self.block = Some(node);
        Ok(())
    }

    /// "the next such marker, a Chapter or the end closes it by BlockEnd. BlockEnd is empty, at the byte where the block stops"
    fn end_block(&mut self) -> Result<(), Refused> {
        // "17 for [..] a block marker, Chapter or text's end met with a character or note marker open, place that backslash [..]
        // or the text's length"
        if !self.open.is_empty() {
            return self.refused(17);
        }
        if let Some(block) = self.block.take() {
            self.put_close(kind::BLOCK_END, block, 0);
        }
        Ok(())
    }

    /// "A Chapter or Verse is one node with its marker, the blanks after it and, where there are any, its number word, which
    /// stops before a blank or backslash; a glued one ends with its name."
    fn number(&mut self, kind: u8, written: Written<'a>) {
        let Written { name, len, marker } = written;
        let glued = &name[self.entries[marker as usize].name.len()..];
        if !glued.is_empty() {
            self.put(kind, marker, len, leading_number(glued));
            return;
        }
        let behind = &self.rest()[len..];
        let (blanks, behind) = behind.split_at(until(behind, |c| !is_blank(c)));
        let word = match blanks {
            "" => "",
            _ => &behind[..until(behind, |c| is_blank(c) || c == '\\')],
        };
        let len = len + blanks.len() + word.len();
        self.put(kind, marker, len, leading_number(word));
    }

    /// "milestones [close] by `\*` directly after the name, or after attributes that only blanks part from it"
    fn milestone(&mut self, written: Written<'a>) -> Result<(), Refused> {
        let behind = &self.rest()[written.len..];
        let blanks = until(behind, |c| !is_blank(c));
        let attributes = until(&behind[blanks..], |c| c == '\\');
        let well_parted = match attributes {
            0 => blanks == 0,
            _ => behind[blanks..].starts_with('|'),
        };
        let closed = behind[blanks + attributes..].starts_with("\\*");

        // "17 for [..] a milestone not closed as above, [..] place [..] for a milestone its own"
        if !(well_parted && closed) {
            return self.refused(17);
        }
        let open = self.put(kind::MARKER_OPEN, written.marker, written.len, 0);
        self.put_some(kind::TEXT, blanks);
        self.put_some(kind::ATTRIBUTE, attributes);
        self.put_close(kind::MARKER_CLOSE, open, "\\*".len());
        Ok(())
    }
}

/// The bytes before the first such character, or of the whole text.
fn until(text: &str, stops: impl Fn(char) -> bool) -> usize {
    text.find(stops).unwrap_or(text.len())
}

/// "Its link is the label's leading number, or 0 if none can be read."
fn leading_number(label: &str) -> u32 {
    let digits = until(label, |c| !c.is_ascii_digit());
    label[..digits].parse().unwrap_or(0)
}

#[cfg(test)]
mod tests;
