//! Nodes that share the bytes of one long span. No parser makes such tapes, but numbers 1 to 10 let them pass. Time grows with
//! the nodes times the source, and for milestones with the square of the nodes times the source, so that these have far fewer
//! nodes than they could have.

use std::ops::Range;

use super::markers::{MARKERS, marker};
use super::shapes::{Shape, list, long_text};
use crate::document::{Document, kind};
use crate::refusals::LARGEST_SOURCE;
use crate::samples::{Builder, node};

/// How many nodes share a span.
const SHARERS: usize = 32;

/// All of them.
pub fn overlapping() -> Vec<Shape> {
    list! {
        "32 markers of one name of 1 MiB": names,
        "32 figures of the same 1 MiB of blanks": figures,
        "32 verses of one number of 1 MiB": verses,
        "32 words with the same pairs of 1 MiB": attributes,
        "16 starts of one base of 512 KiB, 16 ends of another": milestones,
    }
}

/// A builder that has its source already.
fn over(source: String) -> Builder {
    Builder {
        source,
        ..Builder::default()
    }
}

fn leaf(builder: &mut Builder, kind: u8, marker: u16, span: &Range<usize>) {
    let [start, len] = [span.start, span.len()].map(|place| place as u32);
    builder.nodes.push(node(kind, marker, start, len, 0));
}

fn open(builder: &mut Builder, name: &str, span: &Range<usize>) {
    builder.open.push(builder.nodes.len());
    leaf(builder, kind::MARKER_OPEN, marker(name), span);
}

fn names(by: usize) -> Document {
    let mut builder = over(long_text(LARGEST_SOURCE, "\\", "a", ""));
    let whole = 0..builder.source.len();
    for _ in 0..SHARERS / by {
        open(&mut builder, "add", &whole);
        builder.end();
    }
    builder.under(&MARKERS)
}

/// Markers without a name of their own, each with one child.
fn parents(by: usize, name: &str, kind: u8, mut builder: Builder) -> Document {
    let whole = 0..builder.source.len();
    for _ in 0..SHARERS / by {
        open(&mut builder, name, &(0..0));
        leaf(&mut builder, kind, 0, &whole);
        builder.end();
    }
    builder.under(&MARKERS)
}

fn figures(by: usize) -> Document {
    parents(
        by,
        "fig",
        kind::TEXT,
        over(long_text(LARGEST_SOURCE, "", " ", "")),
    )
}

fn attributes(by: usize) -> Document {
    parents(
        by,
        "w",
        kind::ATTRIBUTE,
        over(long_text(LARGEST_SOURCE, "|", "a=\"b\" ", "")),
    )
}

fn verses(by: usize) -> Document {
    let mut builder = over(long_text(LARGEST_SOURCE, "\\v ", "0", "1"));
    let whole = 0..builder.source.len();
    for _ in 0..SHARERS / by {
        leaf(&mut builder, kind::VERSE, marker("v"), &whole);
    }
    builder.under(&MARKERS)
}

/// The two bases differ in their last bytes alone.
fn milestones(by: usize) -> Document {
    let base = "a".repeat(LARGEST_SOURCE / 2 - 4);
    let mut builder = over(format!("\\{base}a-s\\{base}b-e"));
    let half = LARGEST_SOURCE / 2;
    for span in [0..half, half..2 * half] {
        for _ in 0..SHARERS / 2 / by {
            open(&mut builder, "qt-s", &span);
            builder.end();
        }
    }
    builder.under(&MARKERS)
}

#[cfg(test)]
mod tests {
    use super::*;
    use crate::books::tests::findings;

    #[test]
    fn they_are_accepted() {
        let found: Vec<usize> = overlapping()
            .iter()
            .map(|shape| findings(&(shape.document)(16)))
            .collect();
        assert_eq!(found.len(), overlapping().len());
        // A start and an end that don't fit each other.
        assert_eq!(found[4], 2);
    }
}
