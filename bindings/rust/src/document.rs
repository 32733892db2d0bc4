//! The parts of a document that a caller lends, none of them checked here: the library does that.

use crate::node::Node;
use crate::raw;

/// The text of a marker table.
///
/// For each marker three lines, each ended by byte 10: `name=`, `category=`, `role=`. Marker k of a tape is the k-th from 0.
/// A text that breaks this layout is turned back by number 1 when a document is checked.
#[derive(Clone, Copy, PartialEq, Eq, Debug)]
pub struct Table<'a> {
    bytes: &'a [u8],
}

impl<'a> Table<'a> {
    /// A table of these bytes.
    pub const fn new(bytes: &'a [u8]) -> Self {
        Table { bytes }
    }

    /// The bytes of the text.
    pub const fn as_bytes(&self) -> &'a [u8] {
        self.bytes
    }
}

impl<'a> From<&'a str> for Table<'a> {
    fn from(text: &'a str) -> Self {
        Table::new(text.as_bytes())
    }
}

/// The tape of a document: its nodes, 16 bytes each, little-endian.
///
/// A parser makes it; [`OwnedTape::read`](crate::OwnedTape::read) makes one of a text.
#[derive(Clone, Copy, PartialEq, Eq, Debug)]
pub struct Tape<'a> {
    bytes: &'a [u8],
}

impl<'a> Tape<'a> {
    /// A tape of these bytes. A length that isn't that of whole nodes is turned back by number 4 when a document is checked.
    pub const fn from_bytes(bytes: &'a [u8]) -> Self {
        Tape { bytes }
    }

    /// A tape of these nodes, which aren't copied.
    ///
    /// ```
    /// use harkoxin::{Node, NodeKind, Tape};
    ///
    /// let nodes = [Node::new(NodeKind::Root, 0, 0, 0, 1)];
    /// let tape = Tape::from_nodes(&nodes);
    /// assert_eq!(tape.len(), 1);
    /// assert_eq!(tape.as_bytes().as_ptr(), nodes.as_ptr().cast());
    /// ```
    pub fn from_nodes(nodes: &'a [Node]) -> Self {
        Tape::from_bytes(raw::node_bytes(nodes))
    }

    /// The bytes of the nodes.
    pub const fn as_bytes(&self) -> &'a [u8] {
        self.bytes
    }

    /// How many whole nodes the tape has.
    pub const fn len(&self) -> usize {
        self.bytes.len() / size_of::<Node>()
    }

    /// Whether the tape has no whole node.
    pub const fn is_empty(&self) -> bool {
        self.len() == 0
    }
}

impl<'a> From<&'a [Node]> for Tape<'a> {
    fn from(nodes: &'a [Node]) -> Self {
        Tape::from_nodes(nodes)
    }
}
