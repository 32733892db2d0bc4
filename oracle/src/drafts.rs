//! Texts with their tables for the reader: every small one, those of a seed, large ones; and what a text and its answer show.

mod features;
mod large;
mod seeded;
mod small;

use crate::document::{Entry, Node, table_text};
use crate::reading::{Refused, read};

pub use features::Shown;
pub use large::{Large, books, climbs, large, of_book, shapes};
pub use seeded::{draft, room};
pub use small::every_draft;

/// Table and text, neither of them checked.
#[derive(Clone, Debug, Default, PartialEq, Eq, Hash)]
pub struct Draft {
    pub table: Vec<u8>,
    pub text: Vec<u8>,
}

impl Draft {
    fn new(entries: &[Entry<'_>], text: impl Into<Vec<u8>>) -> Draft {
        Draft {
            table: table_text(entries),
            text: text.into(),
        }
    }

    /// What the plain reader says, with room for so many nodes.
    pub fn read(&self, room: usize) -> Result<Vec<Node>, Refused> {
        read(&self.table, &self.text, room)
    }
}

#[cfg(test)]
mod tests;
