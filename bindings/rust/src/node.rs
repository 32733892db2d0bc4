//! A node of a tape, with the layout of the published `Node` of `usfm3`.

use std::mem::offset_of;

/// What a node is.
#[derive(Clone, Copy, PartialEq, Eq, Debug)]
#[repr(u8)]
pub enum NodeKind {
    /// The document; node 0 and no other. Its link is the number of nodes, or the last of them where that is its close.
    Root,
    /// A marker that opens; its link is its close.
    MarkerOpen,
    /// A close that stands in the source.
    MarkerClose,
    /// `\c`; its link is the chapter's number.
    Chapter,
    /// `\v`; its link is the verse's leading number.
    Verse,
    /// Text.
    Text,
    /// The attributes of the marker around it, from `|` on.
    Attribute,
    /// A close that doesn't stand in the source: where a block ends.
    BlockEnd,
    /// Bytes that the parser couldn't read.
    Error,
}

/// A place in the marker table.
#[derive(Clone, Copy, PartialEq, Eq, Debug)]
#[repr(transparent)]
pub struct MarkerId(pub u16);

impl MarkerId {
    /// A marker that the table doesn't have: past the end of any.
    pub const UNKNOWN: MarkerId = MarkerId(u16::MAX);
}

/// A node of a tape, 16 bytes.
#[derive(Clone, Copy, PartialEq, Eq, Debug)]
#[repr(C)]
pub struct Node {
    /// What it is.
    pub kind: NodeKind,
    /// A parser's flags, which the check doesn't read.
    pub flags: u8,
    /// Its marker; read of a `MarkerOpen`, a `Chapter` and a `Verse`.
    pub marker: MarkerId,
    /// Where it starts in the source, in bytes.
    pub start: u32,
    /// How many bytes it takes.
    pub len: u32,
    /// The node that closes it, or a chapter's or verse's number.
    pub link: u32,
}

// `Tape::from_nodes` hands these bytes to the library, which reads them at these places.
const _: () = {
    assert!(size_of::<Node>() == 16 && align_of::<Node>() == 4);
    assert!(offset_of!(Node, kind) == 0 && size_of::<NodeKind>() == 1);
    assert!(offset_of!(Node, flags) == 1);
    assert!(offset_of!(Node, marker) == 2 && size_of::<MarkerId>() == 2);
    assert!(offset_of!(Node, start) == 4);
    assert!(offset_of!(Node, len) == 8);
    assert!(offset_of!(Node, link) == 12);
};

impl Node {
    /// A node without flags.
    pub const fn new(kind: NodeKind, marker: u16, start: u32, len: u32, link: u32) -> Self {
        Node {
            kind,
            flags: 0,
            marker: MarkerId(marker),
            start,
            len,
            link,
        }
    }
}
