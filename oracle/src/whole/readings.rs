//! Texts that are read to tapes, and what a check says of these.

use harkoxin::raw::{DONE, READ_WORDS, REFUSED};
use harkoxin::{OwnedTape, Refusal, Table, Tape};

use super::Comparison;
use crate::differ::agree;
use crate::document::{Document, NODE_BYTES, Node};
use crate::drafts::{Draft, room};
use crate::faults;
use crate::reached::Function;
use crate::reading::{Refused, read};
use crate::refusals::{MOST_NODES, refusal};
use crate::rng::Rng;

/// What is owed for a text.
pub struct Owed {
    /// With room for all nodes.
    pub whole: Result<Vec<Node>, Refused>,
    /// The nodes that the lent list had room for.
    pub room: usize,
}

/// The nodes as they stand on a tape; none of a text that is turned back.
fn bytes_of(nodes: &Result<Vec<Node>, Refused>) -> Vec<u8> {
    let nodes = nodes.iter().flatten().copied();
    nodes.flat_map(Node::to_bytes).collect()
}

fn plain(refusal: Refusal) -> Refused {
    (refusal.number as u32, refusal.place)
}

impl Comparison {
    /// Compares all that is said of a text; its lists are chosen by the seed. Its document, if it has a tape of at most 65,535
    /// nodes that isn't too deep.
    pub fn compare_text(&mut self, draft: &Draft, seed: u64) -> Result<Option<Document>, String> {
        faults::at_seed(seed);
        let mut rng = Rng::new(seed.rotate_left(32));
        let Draft { table, text } = draft;
        let lent = Document {
            table: table.clone(),
            source: text.clone(),
            tape: Vec::new(),
        };
        self.slots.lend(&lent, &mut rng);
        let Owed { whole, room } = self.reading(table, text, &mut rng)?;
        self.slots.expect_document()?;
        let with_room = match &whole {
            Ok(nodes) if nodes.len() > room => &draft.read(room),
            whole => whole,
        };
        self.counts.shown.add(draft, room, with_room);
        let Ok(nodes) = whole else {
            return Ok(None);
        };
        let mut document = lent;
        document.set_nodes(&nodes);
        let is_accepted = refusal(&document, usize::MAX, usize::MAX).is_none();
        Ok(is_accepted.then_some(document))
    }

    /// The reading of the lent source, over a list by the seed and through the binding.
    pub(super) fn reading(
        &mut self,
        table: &[u8],
        text: &[u8],
        rng: &mut Rng,
    ) -> Result<Owed, String> {
        let whole = read(table, text, usize::MAX);
        let room = room(rng.word(), whole.as_ref().map_or(9, Vec::len));
        match &whole {
            Ok(nodes) if nodes.len() > room => {
                self.read_over(&read(table, text, room), room, rng)?
            }
            whole => self.read_over(whole, room, rng)?,
        }
        self.counts.text(whole.as_ref().ok().map(Vec::len));
        self.read_through_the_binding(&whole)?;
        if let Ok(nodes) = &whole {
            let mut document = Document {
                table: table.to_vec(),
                source: text.to_vec(),
                tape: Vec::new(),
            };
            document.set_nodes(nodes);
            self.checked_text(&document)?;
        }
        Ok(Owed { whole, room })
    }

    /// One call with room for so many nodes, and at times with a rest that is no node.
    fn read_over(
        &mut self,
        owed: &Result<Vec<Node>, Refused>,
        room: usize,
        rng: &mut Rng,
    ) -> Result<(), String> {
        let rest = if rng.one_in(3) {
            rng.below(NODE_BYTES)
        } else {
            0
        };
        let len = NODE_BYTES * room + rest;
        self.slots.nodes.fill(len, rng);
        self.slots.fill_out(READ_WORDS, rng);
        self.counts.lent(&[len, 8 * self.slots.out.len()]);
        self.slots.read();
        let answer: [u64; READ_WORDS] = match owed {
            Ok(nodes) => [DONE, 0, 0, nodes.len() as u64],
            &Err((number, place)) => [REFUSED, number.into(), place, 0],
        };
        self.counts.reached.answer(Function::Read, answer[1]);
        let nodes = &self.slots.nodes;
        nodes.expect("the nodes of a text", &bytes_of(owed))?;
        self.slots.expect_out("the answer of a reading", &answer)
    }

    fn read_through_the_binding(&self, whole: &Result<Vec<Node>, Refused>) -> Result<(), String> {
        let table = Table::new(self.slots.table.list());
        let tape = OwnedTape::read_bytes(&table, self.slots.source.list());
        let refused = tape.as_ref().err().copied().map(plain);
        agree("a text's refusal", refused, whole.as_ref().err().copied())?;
        let owed = bytes_of(whole);
        match tape {
            Ok(tape) if tape.as_tape().as_bytes() != owed => {
                Err("the binding has other nodes of a text".to_string())
            }
            _ => Ok(()),
        }
    }

    /// The check of a text with its own tape, which "is one that numbers 4 to 9 don't turn back, unless it is too deep or over
    /// 65,535 nodes".
    fn checked_text(&mut self, document: &Document) -> Result<(), String> {
        let owed = refusal(document, usize::MAX, usize::MAX);
        let is_long = document.node_count() > MOST_NODES;
        match owed {
            None if !is_long => {}
            Some((4, 0)) if is_long => self.counts.too_long += 1,
            Some((8, _)) => self.counts.too_deep += 1,
            other => return Err(format!("{other:?} turns a text's own tape back")),
        }
        let table = Table::new(self.slots.table.list());
        let text = self.slots.source.list();
        let report = self.checker.check_text_bytes(&table, text);
        let refused = report.as_ref().err().copied().map(plain);
        agree("the refusal of a text that is read", refused, owed)?;
        let tape = Tape::from_bytes(&document.tape);
        if report != self.checker.check_bytes(&table, text, &tape) {
            return Err("a text has another report than its tape".to_string());
        }
        Ok(())
    }
}
