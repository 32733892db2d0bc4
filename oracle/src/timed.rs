//! The whole check beside the published `validate`, and the reading of texts beside the plain reader, by the clock: both over the
//! same inputs, taken in turn.

#[cfg(feature = "library")]
mod measured;
#[cfg(feature = "library")]
mod readings;
mod sheet;
mod timer;

use std::hint::black_box;

use crate::cst::Cursor;
use crate::document::Document;
use crate::published::{published_node, with_table};
use crate::tape::Tape;
use crate::unreadable::unreadable;
use crate::validate::validate;

#[cfg(feature = "library")]
pub use measured::{Best, Measured, Texts};
#[cfg(feature = "library")]
pub use readings::Readings;
pub use sheet::{Sheet, grouped, ratio, rounds, seconds};

use timer::Timer;

/// Documents under one table, with the nodes that the published code reads.
pub struct Published<'a> {
    documents: &'a [Document],
    cursors: Vec<Cursor<'a>>,
    /// How many findings of code 35 they have, which the published code doesn't give.
    unreadable: u64,
}

/// Runs `work` with the documents decoded. All have the table of the first.
pub fn with_published<T>(documents: &[Document], work: impl FnOnce(Published<'_>) -> T) -> T {
    let table = &documents[0].table;
    assert!(documents.iter().all(|document| document.table == *table));
    let tapes: Vec<Tape> = documents.iter().map(tape).collect();
    with_table(table, |table| {
        let pairs = documents.iter().zip(&tapes);
        let cursors = pairs.map(|(document, tape)| {
            let source =
                std::str::from_utf8(&document.source).expect("an accepted source is UTF-8");
            Cursor::new(tape, source, table, 0)
        });
        work(Published {
            documents,
            cursors: cursors.collect(),
            unreadable: documents.iter().map(|it| unreadable(it).len() as u64).sum(),
        })
    })
}

fn tape(document: &Document) -> Tape {
    Tape {
        nodes: document.nodes().map(published_node).collect(),
    }
}

impl Published<'_> {
    /// Runs `from_utf8` and `validate` over each document: the seconds of all together, and the number of findings with those of
    /// code 35. The time to free the findings isn't counted.
    pub fn run(&self) -> (f64, u64) {
        let (mut seconds, mut total) = (0.0, self.unreadable);
        for (document, &cursor) in self.documents.iter().zip(&self.cursors) {
            let timer = Timer::start();
            let read = black_box(std::str::from_utf8(black_box(&document.source)));
            let found = black_box(validate(black_box(cursor)));
            seconds += timer.seconds();
            assert!(read.is_ok());
            total += found.len() as u64;
        }
        (seconds, total)
    }
}

#[cfg(test)]
mod tests {
    use super::*;
    use crate::samples::{listing, read};

    #[test]
    fn the_findings_of_all_documents_are_counted() {
        let listing = listing();
        let documents = [listing.clone(), listing];
        assert_eq!(with_published(&documents, |published| published.run().1), 2);
        let clean = [read("\\id GEN\n\\c 1\n\\p\n\\v 1 Word")];
        assert_eq!(with_published(&clean, |published| published.run().1), 0);
        let unreadable = [read("\\id GEN\n\\c 1\n\\p\n\\v x \\v 1-x \\v 4294967296 ")];
        assert_eq!(with_published(&unreadable, |it| it.run().1), 2);
    }
}
