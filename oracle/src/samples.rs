//! Documents written by hand.

mod reader;
mod shaped;
mod texts;

use crate::document::{Document, Entry, Node, kind, table_text};

pub use reader::read;
pub use shaped::shaped;
pub use texts::TEXTS;

/// A document of these parts.
pub fn document(entries: &[Entry<'_>], source: &str, nodes: &[Node]) -> Document {
    let mut document = Document {
        table: table_text(entries),
        source: source.as_bytes().to_vec(),
        tape: Vec::new(),
    };
    document.set_nodes(nodes);
    document
}

/// Kind, marker, start, len and link; flags are 0.
pub fn node(kind: u8, marker: u16, start: u32, len: u32, link: u32) -> Node {
    Node {
        kind,
        flags: 0,
        marker,
        start,
        len,
        link,
    }
}

/// Name, category and role by their words' places.
pub const fn entry(name: &str, category: usize, role: usize) -> Entry<'_> {
    Entry {
        name,
        category,
        role,
    }
}

/// Builds a document: text and tape grow together.
pub struct Builder {
    pub source: String,
    pub nodes: Vec<Node>,
    /// The opens that aren't closed yet.
    pub open: Vec<usize>,
}

impl Default for Builder {
    fn default() -> Builder {
        Builder {
            source: String::new(),
            nodes: vec![node(kind::ROOT, 0, 0, 0, 0)],
            open: Vec::new(),
        }
    }
}

impl Builder {
    pub fn leaf(&mut self, kind: u8, marker: u16, text: &str, link: u32) -> &mut Builder {
        let start = self.source.len() as u32;
        self.source.push_str(text);
        self.nodes
            .push(node(kind, marker, start, text.len() as u32, link));
        self
    }

    pub fn open(&mut self, marker: u16, text: &str) -> &mut Builder {
        self.open.push(self.nodes.len());
        self.leaf(kind::MARKER_OPEN, marker, text, 0)
    }

    /// Closes the innermost open.
    pub fn close(&mut self, kind: u8, text: &str) -> &mut Builder {
        let open = self.open.pop().expect("a close follows its open");
        self.nodes[open].link = self.nodes.len() as u32;
        self.leaf(kind, 0, text, 0)
    }

    /// Closes the innermost open by a BlockEnd.
    pub fn end(&mut self) -> &mut Builder {
        self.close(kind::BLOCK_END, "")
    }

    pub fn text(&mut self, text: &str) -> &mut Builder {
        self.leaf(kind::TEXT, 0, text, 0)
    }

    /// Closes what is open and gives the nodes to a document that has its table already.
    pub fn finish(&mut self, document: &mut Document) {
        while !self.open.is_empty() {
            self.end();
        }
        self.nodes[0].link = self.nodes.len() as u32;
        document.source.clear();
        document.source.extend_from_slice(self.source.as_bytes());
        document.set_nodes(&self.nodes);
    }

    /// The whole document under these entries.
    pub fn under(&mut self, entries: &[Entry<'_>]) -> Document {
        let mut document = Document {
            table: table_text(entries),
            ..Document::default()
        };
        self.finish(&mut document);
        document
    }
}

/// The listing's example of document 01.
pub fn listing() -> Document {
    let entries = [
        entry("id", 0, 1),
        entry("c", 1, 0),
        entry("v", 2, 0),
        entry("p", 3, 2),
    ];
    let nodes = [
        node(kind::ROOT, 0, 0, 25, 9),
        node(kind::MARKER_OPEN, 0, 0, 3, 3),
        node(kind::TEXT, 0, 3, 5, 0),
        node(kind::BLOCK_END, 0, 8, 0, 0),
        node(kind::CHAPTER, 1, 8, 5, 1),
        node(kind::MARKER_OPEN, 3, 13, 2, 8),
        node(kind::VERSE, 2, 16, 5, 2),
        node(kind::TEXT, 0, 21, 4, 0),
        node(kind::BLOCK_END, 3, 25, 0, 0),
    ];
    document(&entries, "\\id GEN\n\\c 1\n\\p\n\\v 2 Word", &nodes)
}
