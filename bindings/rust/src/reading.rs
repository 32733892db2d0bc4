//! The tape of a text.

use crate::document::{Table, Tape};
use crate::raw::{self, NODE_BYTES};
use crate::refusal::Refusal;
use crate::texts::lengthen;

/// Number 2 turns a longer text back before the list is looked at.
const LONGEST_TEXT: usize = 1_048_576;

/// Bytes of a text for a node, to begin with: most texts have more.
const GUESS: usize = 8;

/// The number that turns a text back whose nodes have no room.
const NO_ROOM: u64 = 18;

/// A tape that is read from a text, with memory of its own.
///
/// ```
/// use harkoxin::{Node, NodeKind, OwnedTape, Table, Tape};
///
/// let table = Table::from("name=p\ncategory=paragraph\nrole=boundary\n");
/// let tape = OwnedTape::read(&table, "\\p Word")?;
/// let nodes = [
///     Node::new(NodeKind::Root, 0, 0, 7, 4),
///     Node::new(NodeKind::MarkerOpen, 0, 0, 2, 3),
///     Node::new(NodeKind::Text, 0, 2, 5, 0),
///     Node::new(NodeKind::BlockEnd, 0, 7, 0, 0),
/// ];
/// assert_eq!(tape.as_tape(), Tape::from_nodes(&nodes));
/// # Ok::<(), harkoxin::Refusal>(())
/// ```
#[derive(Clone, PartialEq, Eq, Debug)]
pub struct OwnedTape {
    bytes: Vec<u8>,
}

impl OwnedTape {
    /// Reads a text in USFM.
    ///
    /// A paragraph or identification marker opens a block, which the next one, a chapter or the end closes. Characters and notes
    /// must be closed by their own name, milestones by `\*` behind their name or their attributes.
    ///
    /// A check of the text with its tape is turned back by 8, where more than 64 markers are open, or by 4, where there are over
    /// 65,535 nodes, and by no other number.
    ///
    /// # Errors
    ///
    /// Numbers 1 and 2 as of a check. Then, of these two the one that comes first: 16 for a marker that isn't in the table or is of
    /// category other; 17 for a close without its open innermost, a milestone that isn't closed, and a character or note that is
    /// open where a block or a chapter begins or the text ends. Both have a byte of the text as their place.
    pub fn read(table: &Table<'_>, text: &str) -> Result<Self, Refusal> {
        OwnedTape::read_bytes(table, text.as_bytes())
    }

    /// Reads a text that may not be UTF-8, which number 3 turns back.
    ///
    /// # Errors
    ///
    /// As [`read`](OwnedTape::read).
    pub fn read_bytes(table: &Table<'_>, text: &[u8]) -> Result<Self, Refusal> {
        let mut bytes = Vec::new();
        let len = read_over(table, text, &mut bytes)?;
        bytes.truncate(len);
        bytes.shrink_to_fit();
        Ok(OwnedTape { bytes })
    }

    /// The tape, to be lent to a check.
    pub fn as_tape(&self) -> Tape<'_> {
        Tape::from_bytes(&self.bytes)
    }
}

impl<'a> From<&'a OwnedTape> for Tape<'a> {
    fn from(tape: &'a OwnedTape) -> Self {
        tape.as_tape()
    }
}

/// Reads a text over a list, which is made longer where it must be: how many bytes the nodes take.
pub(crate) fn read_over(
    table: &Table<'_>,
    text: &[u8],
    list: &mut Vec<u8>,
) -> Result<usize, Refusal> {
    let most = text.len().min(LONGEST_TEXT) + 1;
    lengthen(list, NODE_BYTES * (most / GUESS + 1));
    match call(table, text, list) {
        Err(Refusal { number, place }) if number == NO_ROOM => {
            lengthen(list, NODE_BYTES * most.min(place as usize));
            call(table, text, list)
        }
        answer => answer,
    }
}

fn call(table: &Table<'_>, text: &[u8], list: &mut [u8]) -> Result<usize, Refusal> {
    let mut out = [0; raw::READ_WORDS];
    raw::read(table.as_bytes(), text, list, &mut out);
    match out {
        [raw::DONE, _, _, nodes] => Ok(NODE_BYTES.saturating_mul(nodes as usize)),
        [_, number, place, _] => Err(Refusal { number, place }),
    }
}
