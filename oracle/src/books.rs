//! Documents for measuring time: whole books with the tape that a parser makes of ordinary text, and shapes that make a check
//! take long.

mod bible;
mod markers;
mod overlapping;
mod shapes;
mod words;
mod writer;

use crate::document::Document;

pub use bible::{BOOKS, Plan, bible, book, volumes};
pub use markers::{MARKERS, marker};
pub use overlapping::overlapping;
pub use shapes::{Shape, shapes};
pub use writer::{Manner, Style};

use writer::Writer;

/// Verses of a chapter in a book that is written up to a size.
const VERSES: usize = 25;

/// A book of as many verses as fit in so many nodes and in the source that number 2 lets pass.
pub fn filled(style: Style, manner: Manner, nodes: usize) -> Document {
    let mut writer = Writer::new(style, manner, true, nodes as u64);
    writer.front("GEN");
    for verse in 0.. {
        let before = writer.mark();
        writer.lone_verse(1 + verse / VERSES, 1 + verse % VERSES);
        if !writer.fits(nodes) {
            writer.back(before);
            break;
        }
    }
    writer.finish()
}

#[cfg(test)]
mod tests {
    use super::*;
    use crate::published::{Validated, validate};
    use crate::refusals::{LARGEST_SOURCE, MOST_NODES, refusal};

    pub fn findings(document: &Document) -> usize {
        let n = document.node_count();
        assert_eq!(refusal(document, n, n), None);
        match validate(document) {
            Validated::Findings(list) => list.len(),
            Validated::Overflowed => panic!("no sum of a book leaves 32 bits"),
        }
    }

    #[test]
    fn clean_books_of_any_size_have_no_finding() {
        for manner in [Manner::Prose, Manner::Lists, Manner::Gospel, Manner::Poetry] {
            assert_eq!(findings(&filled(Style::Plain, manner, 20_000)), 0);
            assert_eq!(findings(&filled(Style::WordLevel, manner, 20_000)), 0);
        }
    }

    #[test]
    fn a_faulty_book_has_a_finding_in_every_verse() {
        let (ruth, verses) = (book("RUT", Style::Faulty), 85);
        assert!(findings(&ruth) > verses);
    }

    #[test]
    fn a_book_is_filled_up_to_its_nodes() {
        for nodes in [1_000, 2_000, 4_000, 8_000, 16_000, 32_000, MOST_NODES] {
            for (style, manner) in [
                (Style::Plain, Manner::Poetry),
                (Style::WordLevel, Manner::Prose),
            ] {
                let n = filled(style, manner, nodes).node_count();
                assert!(n <= nodes && n + 250 > nodes, "{n} for {nodes}");
            }
        }
    }

    #[test]
    fn a_book_of_prose_is_filled_up_to_its_bytes() {
        let bytes = filled(Style::Plain, Manner::Prose, MOST_NODES).source.len();
        assert!(bytes + 1_000 > LARGEST_SOURCE);
    }
}
