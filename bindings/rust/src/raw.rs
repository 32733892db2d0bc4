//! The library's functions over plain slices, which a caller lends.
//!
//! Each writes its answer over `out`, as far as that has room, and says a refusal by its number and its place. None requires
//! anything of its caller: lists may be of any length and hold anything. A list of findings has [`FINDING_WORDS`] words for
//! each: severity, code, start, len, node, form, and two numbers.
//!
//! ```
//! use harkoxin::raw;
//!
//! let mut out = [0; raw::CHECK_WORDS];
//! raw::check(b"", b"", b"", &mut [], &mut [], &mut [], &mut out);
//! assert_eq!(out, [raw::REFUSED, 4, 0, 0, 0, 0, 0, 0, 0]);
//! ```

// All `unsafe` code of the crate is here: the calls, and nodes as bytes.

use std::mem::offset_of;

use crate::node::Node;

/// Words of a finding in a list.
pub const FINDING_WORDS: usize = 8;

/// Words of the answer of [`check`].
pub const CHECK_WORDS: usize = 9;

/// Words of the answer of [`message`].
pub const MESSAGE_WORDS: usize = 4;

/// Words of the answer of [`messages`].
pub const MESSAGES_WORDS: usize = 5;

/// Words of the answer of [`report`].
pub const REPORT_WORDS: usize = CHECK_WORDS + MESSAGES_WORDS;

/// Words of the answer of [`tally`].
pub const TALLY_WORDS: usize = 3;

/// Words of the answer of [`mark`].
pub const MARK_WORDS: usize = 5;

/// Words of the answer of [`read`].
pub const READ_WORDS: usize = 4;

/// Bytes of a node on a tape.
pub const NODE_BYTES: usize = size_of::<Node>();

/// A verdict: all that was requested is done.
pub const DONE: u64 = 0;

/// A verdict: the findings list of [`check`] is cut, or [`messages`] stopped before a text.
pub const CUT: u64 = 1;

/// A verdict: turned back.
pub const REFUSED: u64 = 2;

/// An entry of the open starts that [`check`] is lent: a milestone's start that no end has taken yet.
#[derive(Clone, Copy, PartialEq, Eq, Debug, Default)]
#[repr(C)]
pub struct OpenStart {
    /// The start's node.
    pub node: u32,
    /// The length of its base, in bytes.
    pub base_len: u32,
}

// The library reads and writes the fields of a lent list at these places.
const _: () = {
    assert!(size_of::<OpenStart>() == 8 && align_of::<OpenStart>() == 4);
    assert!(offset_of!(OpenStart, node) == 0);
    assert!(offset_of!(OpenStart, base_len) == 4);
};

mod library {
    use super::OpenStart;

    unsafe extern "C" {
        pub fn harkoxin_check(
            table: *const u8,
            table_len: usize,
            source: *const u8,
            source_len: usize,
            tape: *const u8,
            tape_len: usize,
            seen: *mut u32,
            seen_len: usize,
            opens: *mut OpenStart,
            opens_len: usize,
            list: *mut u64,
            list_len: usize,
            out: *mut u64,
            out_len: usize,
        );
        pub fn harkoxin_report(
            table: *const u8,
            table_len: usize,
            source: *const u8,
            source_len: usize,
            tape: *const u8,
            tape_len: usize,
            seen: *mut u32,
            seen_len: usize,
            opens: *mut OpenStart,
            opens_len: usize,
            list: *mut u64,
            list_len: usize,
            ends: *mut u64,
            ends_len: usize,
            text: *mut u8,
            text_len: usize,
            out: *mut u64,
            out_len: usize,
        );
        pub fn harkoxin_message(
            table: *const u8,
            table_len: usize,
            source: *const u8,
            source_len: usize,
            tape: *const u8,
            tape_len: usize,
            code: u64,
            form: u64,
            node: u64,
            first: u64,
            second: u64,
            text: *mut u8,
            text_len: usize,
            out: *mut u64,
            out_len: usize,
        );
        pub fn harkoxin_messages(
            table: *const u8,
            table_len: usize,
            source: *const u8,
            source_len: usize,
            tape: *const u8,
            tape_len: usize,
            list: *const u64,
            list_len: usize,
            ends: *mut u64,
            ends_len: usize,
            text: *mut u8,
            text_len: usize,
            out: *mut u64,
            out_len: usize,
        );
        pub fn harkoxin_tally(
            list: *const u64,
            list_len: usize,
            counts: *mut u64,
            counts_len: usize,
            out: *mut u64,
            out_len: usize,
        );
        pub fn harkoxin_mark(
            errors: u64,
            warnings: u64,
            verses: u64,
            out: *mut u64,
            out_len: usize,
        );
        pub fn harkoxin_read(
            table: *const u8,
            table_len: usize,
            text: *const u8,
            text_len: usize,
            tape: *mut u8,
            tape_len: usize,
            out: *mut u64,
            out_len: usize,
        );
    }
}

/// Checks a document: its findings are written over `list`, as far as that has room.
///
/// The working lists `seen` and `opens` need an entry for each node; what they hold doesn't matter. After a checked document
/// the entries of the nodes are zero, both fields of an open start, and the rest of each list is as it was. A refusal changes
/// no list.
///
/// `out`: verdict ([`DONE`], [`CUT`] or [`REFUSED`]), number, place, total, written, verses, errors, warnings, infos.
///
/// ```
/// use harkoxin::raw::{self, OpenStart};
/// use harkoxin::{Node, NodeKind, Tape};
///
/// let table = b"name=v\ncategory=verse\nrole=content\n";
/// let nodes = [
///     Node::new(NodeKind::Root, 0, 0, 0, 2),
///     Node::new(NodeKind::Verse, 0, 0, 4, 0),
/// ];
/// let tape = Tape::from_nodes(&nodes);
/// let (mut seen, mut opens) = ([0; 2], [OpenStart::default(); 2]);
/// let mut list = [0; 4 * raw::FINDING_WORDS];
/// let mut out = [0; raw::CHECK_WORDS];
/// raw::check(table, b"\\v 2", tape.as_bytes(), &mut seen, &mut opens, &mut list, &mut out);
/// let [verdict, _, _, total, written, ..] = out;
/// assert_eq!((verdict, total, written), (raw::DONE, 4, 4));
/// ```
pub fn check(
    table: &[u8],
    source: &[u8],
    tape: &[u8],
    seen: &mut [u32],
    opens: &mut [OpenStart],
    list: &mut [u64],
    out: &mut [u64],
) {
    // SAFETY: each pointer comes with the length of its own slice, and no slice that is written overlaps another, since it
    // is borrowed mutably. The function is proved to require nothing else and to keep no pointer.
    unsafe {
        library::harkoxin_check(
            table.as_ptr(),
            table.len(),
            source.as_ptr(),
            source.len(),
            tape.as_ptr(),
            tape.len(),
            seen.as_mut_ptr(),
            seen.len(),
            opens.as_mut_ptr(),
            opens.len(),
            list.as_mut_ptr(),
            list.len(),
            out.as_mut_ptr(),
            out.len(),
        );
    }
}

/// Of a finding's words, those that its text depends on.
#[derive(Clone, Copy, PartialEq, Eq, Debug, Default)]
pub struct MessageRequest {
    /// The code's number.
    pub code: u64,
    /// Which of the code's texts.
    pub form: u64,
    /// The node that the finding is about.
    pub node: u64,
    /// The first number.
    pub first: u64,
    /// The second number.
    pub second: u64,
}

impl From<&[u64; FINDING_WORDS]> for MessageRequest {
    fn from(&[_, code, _, _, node, form, first, second]: &[u64; FINDING_WORDS]) -> Self {
        MessageRequest {
            code,
            form,
            node,
            first,
            second,
        }
    }
}

/// Writes the text of one finding over `text`.
///
/// `out`: verdict ([`DONE`] or [`REFUSED`]), number, place, the text's length.
pub fn message(
    table: &[u8],
    source: &[u8],
    tape: &[u8],
    request: MessageRequest,
    text: &mut [u8],
    out: &mut [u64],
) {
    // SAFETY: as in `check`.
    unsafe {
        library::harkoxin_message(
            table.as_ptr(),
            table.len(),
            source.as_ptr(),
            source.len(),
            tape.as_ptr(),
            tape.len(),
            request.code,
            request.form,
            request.node,
            request.first,
            request.second,
            text.as_mut_ptr(),
            text.len(),
            out.as_mut_ptr(),
            out.len(),
        );
    }
}

/// Writes the texts of a list's findings over `text`, one behind another, up to the first that has none or no room; `ends` says
/// where each ends, as far as it has room. A rest of fewer than [`FINDING_WORDS`] words isn't looked at. It reads the document
/// once, where [`message`] reads it for each text.
///
/// `out`: verdict ([`DONE`], [`CUT`] or [`REFUSED`]), number, place, texts written, bytes that they take. Where it is cut,
/// number and place are those of the next text: 12, or 13 with its length.
pub fn messages(
    table: &[u8],
    source: &[u8],
    tape: &[u8],
    list: &[u64],
    ends: &mut [u64],
    text: &mut [u8],
    out: &mut [u64],
) {
    // SAFETY: as in `check`.
    unsafe {
        library::harkoxin_messages(
            table.as_ptr(),
            table.len(),
            source.as_ptr(),
            source.len(),
            tape.as_ptr(),
            tape.len(),
            list.as_ptr(),
            list.len(),
            ends.as_mut_ptr(),
            ends.len(),
            text.as_mut_ptr(),
            text.len(),
            out.as_mut_ptr(),
            out.len(),
        );
    }
}

/// Checks a document as [`check`] does, and writes the texts of the findings that the list then holds over `text` as
/// [`messages`] does, by one reading of the document. A refusal changes no list.
///
/// `out`: the nine words of [`check`], then the five of [`messages`].
///
/// ```
/// use harkoxin::raw::{self, OpenStart};
/// use harkoxin::{Node, NodeKind, Tape};
///
/// let table = b"name=v\ncategory=verse\nrole=content\n";
/// let nodes = [
///     Node::new(NodeKind::Root, 0, 0, 0, 2),
///     Node::new(NodeKind::Verse, 0, 0, 4, 0),
/// ];
/// let tape = Tape::from_nodes(&nodes);
/// let (mut seen, mut opens) = ([0; 2], [OpenStart::default(); 2]);
/// let mut list = [0; 4 * raw::FINDING_WORDS];
/// let (mut ends, mut text) = ([0; 4], [0; 1_000]);
/// let mut out = [0; raw::REPORT_WORDS];
/// raw::report(
///     table, b"\\v 2", tape.as_bytes(),
///     &mut seen, &mut opens, &mut list, &mut ends, &mut text, &mut out,
/// );
/// let (check, messages) = out.split_at(raw::CHECK_WORDS);
/// assert_eq!((check[0], check[4]), (raw::DONE, 4));
/// assert_eq!((messages[0], messages[3]), (raw::DONE, 4));
/// let second = &text[ends[0] as usize..ends[1] as usize];
/// assert_eq!(second, b"expected verse 1 but found 2");
/// ```
#[allow(clippy::too_many_arguments)]
pub fn report(
    table: &[u8],
    source: &[u8],
    tape: &[u8],
    seen: &mut [u32],
    opens: &mut [OpenStart],
    list: &mut [u64],
    ends: &mut [u64],
    text: &mut [u8],
    out: &mut [u64],
) {
    // SAFETY: as in `check`.
    unsafe {
        library::harkoxin_report(
            table.as_ptr(),
            table.len(),
            source.as_ptr(),
            source.len(),
            tape.as_ptr(),
            tape.len(),
            seen.as_mut_ptr(),
            seen.len(),
            opens.as_mut_ptr(),
            opens.len(),
            list.as_mut_ptr(),
            list.len(),
            ends.as_mut_ptr(),
            ends.len(),
            text.as_mut_ptr(),
            text.len(),
            out.as_mut_ptr(),
            out.len(),
        );
    }
}

/// Counts the findings of a list by code; the counts are written over `counts`, as far as that has room.
///
/// `out`: verdict ([`DONE`] or [`REFUSED`]), number, place.
pub fn tally(list: &[u64], counts: &mut [u64], out: &mut [u64]) {
    // SAFETY: as in `check`.
    unsafe {
        library::harkoxin_tally(
            list.as_ptr(),
            list.len(),
            counts.as_mut_ptr(),
            counts.len(),
            out.as_mut_ptr(),
            out.len(),
        );
    }
}

/// Gives the mark of a document out of one hundred from three of its counts, which may be those of [`check`].
///
/// `out`: verdict ([`DONE`] or [`REFUSED`]), number, place, loss and mark in hundredths; after a refusal these two are 0.
///
/// ```
/// use harkoxin::raw;
///
/// let mut out = [0; raw::MARK_WORDS];
/// raw::mark(0, 1, 1, &mut out);
/// assert_eq!(out, [raw::DONE, 0, 0, 750, 9250]);
/// raw::mark(0, 1, 0, &mut out);
/// assert_eq!(out, [raw::REFUSED, 15, 0, 0, 0]);
/// ```
pub fn mark(errors: u64, warnings: u64, verses: u64, out: &mut [u64]) {
    // SAFETY: as in `check`.
    unsafe {
        library::harkoxin_mark(errors, warnings, verses, out.as_mut_ptr(), out.len());
    }
}

/// Reads a text in USFM to a tape: its nodes are written over `tape`, [`NODE_BYTES`] bytes each.
///
/// What lies behind the written nodes is as it was; a refusal changes nothing. A text of n bytes has at most n + 1 nodes.
///
/// `out`: verdict ([`DONE`] or [`REFUSED`]), number, place, nodes; after a refusal the last is 0. Where the list is too short, 18,
/// the place says how many nodes there are.
///
/// ```
/// use harkoxin::raw;
///
/// let table = b"name=v\ncategory=verse\nrole=content\n";
/// let mut tape = [0; 2 * raw::NODE_BYTES];
/// let mut out = [0; raw::READ_WORDS];
/// raw::read(table, b"\\v 2", &mut tape, &mut out);
/// assert_eq!(out, [raw::DONE, 0, 0, 2]);
/// raw::read(table, b"\\v 2 a", &mut tape, &mut out);
/// assert_eq!(out, [raw::REFUSED, 18, 3, 0]);
/// raw::read(table, b"\\v 2 \\x", &mut tape, &mut out);
/// assert_eq!(out, [raw::REFUSED, 16, 5, 0]);
/// ```
pub fn read(table: &[u8], text: &[u8], tape: &mut [u8], out: &mut [u64]) {
    // SAFETY: as in `check`.
    unsafe {
        library::harkoxin_read(
            table.as_ptr(),
            table.len(),
            text.as_ptr(),
            text.len(),
            tape.as_mut_ptr(),
            tape.len(),
            out.as_mut_ptr(),
            out.len(),
        );
    }
}

/// The bytes of nodes in memory.
pub(crate) fn node_bytes(nodes: &[Node]) -> &[u8] {
    // SAFETY: a node is 16 bytes without padding, as asserted beside it, so that each byte has a value; bytes need no
    // alignment, and what is handed back borrows the nodes.
    unsafe { std::slice::from_raw_parts(nodes.as_ptr().cast::<u8>(), size_of_val(nodes)) }
}
