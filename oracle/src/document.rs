//! A document as the port is lent it: the bytes of table, source and tape.

/// Bytes of one node on the tape.
pub const NODE_BYTES: usize = 16;

/// Node kinds, in the order of the published `NodeKind`.
pub mod kind {
    pub const ROOT: u8 = 0;
    pub const MARKER_OPEN: u8 = 1;
    pub const MARKER_CLOSE: u8 = 2;
    pub const CHAPTER: u8 = 3;
    pub const VERSE: u8 = 4;
    pub const TEXT: u8 = 5;
    pub const ATTRIBUTE: u8 = 6;
    pub const BLOCK_END: u8 = 7;
    pub const ERROR: u8 = 8;
}

/// The words of a `category=` line; a category is a place in this list.
pub const CATEGORIES: [&str; 8] = [
    "identification",
    "chapter",
    "verse",
    "paragraph",
    "character",
    "note",
    "milestone",
    "other",
];

/// The words of a `role=` line; a role is a place in this list.
pub const ROLES: [&str; 3] = ["content", "excluded", "boundary"];

/// Table text, source and tape, none of them checked.
#[derive(Clone, Debug, Default, PartialEq, Eq)]
pub struct Document {
    pub table: Vec<u8>,
    pub source: Vec<u8>,
    pub tape: Vec<u8>,
}

/// The fields of one node.
#[derive(Clone, Copy, Debug, Default, PartialEq, Eq)]
pub struct Node {
    pub kind: u8,
    pub flags: u8,
    pub marker: u16,
    pub start: u32,
    pub len: u32,
    pub link: u32,
}

impl Node {
    pub fn from_bytes(bytes: [u8; NODE_BYTES]) -> Node {
        let word = |at: usize| {
            u32::from_le_bytes([bytes[at], bytes[at + 1], bytes[at + 2], bytes[at + 3]])
        };
        Node {
            kind: bytes[0],
            flags: bytes[1],
            marker: u16::from_le_bytes([bytes[2], bytes[3]]),
            start: word(4),
            len: word(8),
            link: word(12),
        }
    }

    pub fn to_bytes(self) -> [u8; NODE_BYTES] {
        let mut bytes = [0; NODE_BYTES];
        bytes[0] = self.kind;
        bytes[1] = self.flags;
        bytes[2..4].copy_from_slice(&self.marker.to_le_bytes());
        bytes[4..8].copy_from_slice(&self.start.to_le_bytes());
        bytes[8..12].copy_from_slice(&self.len.to_le_bytes());
        bytes[12..16].copy_from_slice(&self.link.to_le_bytes());
        bytes
    }

    /// Where the span ends, as a whole number.
    pub fn end(self) -> u64 {
        u64::from(self.start) + u64::from(self.len)
    }

    pub fn is_close(self) -> bool {
        matches!(self.kind, kind::MARKER_CLOSE | kind::BLOCK_END)
    }
}

impl Document {
    /// The number of whole nodes.
    pub fn node_count(&self) -> usize {
        self.tape.len() / NODE_BYTES
    }

    pub fn node(&self, place: usize) -> Node {
        let at = place * NODE_BYTES;
        let bytes = &self.tape[at..at + NODE_BYTES];
        Node::from_bytes(bytes.try_into().expect("a node has 16 bytes"))
    }

    pub fn set_node(&mut self, place: usize, node: Node) {
        let at = place * NODE_BYTES;
        self.tape[at..at + NODE_BYTES].copy_from_slice(&node.to_bytes());
    }

    pub fn push_node(&mut self, node: Node) {
        self.tape.extend_from_slice(&node.to_bytes());
    }

    /// The whole nodes, in order.
    pub fn nodes(&self) -> impl Iterator<Item = Node> + '_ {
        (0..self.node_count()).map(|place| self.node(place))
    }

    pub fn set_nodes(&mut self, nodes: &[Node]) {
        self.tape.clear();
        for &node in nodes {
            self.push_node(node);
        }
    }

    /// The bytes of all three lists together.
    pub fn size(&self) -> usize {
        self.table.len() + self.source.len() + self.tape.len()
    }

    /// A form that can be pasted into a test.
    pub fn to_hex(&self) -> String {
        let hex = |bytes: &[u8]| -> String { bytes.iter().map(|b| format!("{b:02x}")).collect() };
        format!(
            "table={}\nsource={}\ntape={}",
            hex(&self.table),
            hex(&self.source),
            hex(&self.tape)
        )
    }
}

/// One marker of a table.
#[derive(Clone, Copy, Debug, PartialEq, Eq)]
pub struct Entry<'a> {
    pub name: &'a str,
    pub category: usize,
    pub role: usize,
}

/// The table text of these markers.
pub fn table_text(entries: &[Entry<'_>]) -> Vec<u8> {
    let mut text = String::new();
    for entry in entries {
        for (key, value) in [
            ("name=", entry.name),
            ("category=", CATEGORIES[entry.category]),
            ("role=", ROLES[entry.role]),
        ] {
            text.push_str(key);
            text.push_str(value);
            text.push('\n');
        }
    }
    text.into_bytes()
}

/// The markers of a table text, or `None` where its layout is broken in a way that leaves no
/// markers to read. Lengths and limits are `refusals`' business.
pub fn entries(table: &[u8]) -> Option<Vec<Entry<'_>>> {
    let text = std::str::from_utf8(table).ok()?;
    let mut lines = text.split_terminator('\n');
    let mut entries = Vec::new();
    while let Some(first) = lines.next() {
        let category = lines.next()?.strip_prefix("category=")?;
        let role = lines.next()?.strip_prefix("role=")?;
        entries.push(Entry {
            name: first.strip_prefix("name=")?,
            category: CATEGORIES.iter().position(|&word| word == category)?,
            role: ROLES.iter().position(|&word| word == role)?,
        });
    }
    Some(entries)
}

#[cfg(test)]
mod tests {
    use super::*;

    #[test]
    fn node_fields_stand_where_the_layout_puts_them() {
        let node = Node {
            kind: 1,
            flags: 2,
            marker: 0x0403,
            start: 0x0807_0605,
            len: 0x0c0b_0a09,
            link: 0x100f_0e0d,
        };
        let bytes: [u8; 16] = std::array::from_fn(|at| at as u8 + 1);
        assert_eq!(node.to_bytes(), bytes);
        assert_eq!(Node::from_bytes(bytes), node);
    }

    #[test]
    fn table_text_is_read_back() {
        let list = [
            Entry {
                name: "id",
                category: 0,
                role: 1,
            },
            Entry {
                name: "qt-s",
                category: 6,
                role: 0,
            },
        ];
        let text = table_text(&list);
        assert_eq!(
            text,
            b"name=id\ncategory=identification\nrole=excluded\nname=qt-s\ncategory=milestone\nrole=content\n"
        );
        assert_eq!(entries(&text).unwrap(), list);
        assert_eq!(entries(b"").unwrap(), []);
        assert_eq!(entries(b"name=id\n"), None);
    }
}
