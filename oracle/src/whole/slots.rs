//! Every list that is lent, each in a slot of its own.

use harkoxin::raw::{self, MessageRequest, OpenStart};

use crate::document::Document;
use crate::lent::Slot;
use crate::rng::Rng;

#[derive(Default)]
pub struct Slots {
    pub table: Slot<u8>,
    pub source: Slot<u8>,
    pub tape: Slot<u8>,
    pub seen: Slot<u32>,
    pub opens: Slot<OpenStart>,
    pub list: Slot<u64>,
    pub ends: Slot<u64>,
    pub text: Slot<u8>,
    pub counts: Slot<u64>,
    /// What a text is read over.
    pub nodes: Slot<u8>,
    pub out: Slot<u64>,
    write_protected: bool,
}

impl Slots {
    /// Lends the document to all calls that follow; for one in 64 a write of it is a fault.
    pub fn lend(&mut self, document: &Document, rng: &mut Rng) {
        self.allow_writes();
        self.table.put(&document.table, rng);
        self.source.put(&document.source, rng);
        self.tape.put(&document.tape, rng);
        if rng.one_in(64) {
            self.write_protected = true;
            for slot in [&mut self.table, &mut self.source, &mut self.tape] {
                slot.write_protect();
            }
        }
    }

    fn allow_writes(&mut self) {
        if self.write_protected {
            self.write_protected = false;
            for slot in [&mut self.table, &mut self.source, &mut self.tape] {
                slot.allow_writes();
            }
        }
    }

    /// An error unless the document is as it was lent.
    pub fn expect_document(&self) -> Result<(), String> {
        self.table.expect("the table", &[])?;
        self.source.expect("the source", &[])?;
        self.tape.expect("the tape", &[])
    }

    /// Room for an answer of so many words: mostly enough.
    pub fn fill_out(&mut self, words: usize, rng: &mut Rng) {
        let len = match rng.below(20) {
            0 => rng.below(words),
            _ => words + rng.below(3),
        };
        self.out.fill(len, rng);
    }

    /// An error unless the answer is these words, as far as there is room.
    pub fn expect_out(&self, what: &str, answer: &[u64]) -> Result<(), String> {
        let room = self.out.len().min(answer.len());
        self.out.expect(what, &answer[..room])
    }

    pub fn check(&mut self) {
        raw::check(
            self.table.list(),
            self.source.list(),
            self.tape.list(),
            self.seen.list_mut(),
            self.opens.list_mut(),
            self.list.list_mut(),
            self.out.list_mut(),
        );
    }

    pub fn report(&mut self) {
        raw::report(
            self.table.list(),
            self.source.list(),
            self.tape.list(),
            self.seen.list_mut(),
            self.opens.list_mut(),
            self.list.list_mut(),
            self.ends.list_mut(),
            self.text.list_mut(),
            self.out.list_mut(),
        );
    }

    pub fn message(&mut self, request: MessageRequest) {
        raw::message(
            self.table.list(),
            self.source.list(),
            self.tape.list(),
            request,
            self.text.list_mut(),
            self.out.list_mut(),
        );
    }

    pub fn messages(&mut self) {
        raw::messages(
            self.table.list(),
            self.source.list(),
            self.tape.list(),
            self.list.list(),
            self.ends.list_mut(),
            self.text.list_mut(),
            self.out.list_mut(),
        );
    }

    pub fn tally(&mut self) {
        raw::tally(
            self.list.list(),
            self.counts.list_mut(),
            self.out.list_mut(),
        );
    }

    pub fn mark(&mut self, errors: u64, warnings: u64, verses: u64) {
        raw::mark(errors, warnings, verses, self.out.list_mut());
    }

    /// Reads the source as a text.
    pub fn read(&mut self) {
        raw::read(
            self.table.list(),
            self.source.list(),
            self.nodes.list_mut(),
            self.out.list_mut(),
        );
    }
}
