//! Documents with two of something, in all ways up to a length: what the library reads by blocks of bytes or of nodes, or
//! beside what stands before it.

use crate::document::{Document, kind, table_text};
use crate::samples::{Builder, entry, node};

/// Calls `visit` with two milestone starts and the end of one, so that the other stays unclosed: the bases have the same length,
/// up to `longest`, and differ in the byte at one place or not at all; each start is written with `+` or without.
pub fn every_pair_of_bases(longest: usize, mut visit: impl FnMut(&Document)) {
    for len in 0..=longest {
        let base = "z".repeat(len);
        for differs in 0..=len {
            let mut other = base.clone();
            if differs < len {
                other.replace_range(differs..=differs, "y");
            }
            for plus in [["", ""], ["", "+"], ["+", ""], ["+", "+"]] {
                for end in [&base, &other] {
                    visit(&pair_of_bases([&base, &other], plus, end));
                }
            }
        }
    }
}

fn pair_of_bases(bases: [&str; 2], plus: [&str; 2], end: &str) -> Document {
    let mut builder = Builder::default();
    for name in [
        format!("{}{}-s", plus[0], bases[0]),
        format!("{}{}-s", plus[1], bases[1]),
        format!("{end}-e"),
    ] {
        builder.open(0, &format!("\\{name}"));
        builder.close(kind::MARKER_CLOSE, "\\*");
    }
    builder.under(&[entry("qt-s", 6, 0)])
}

/// Calls `visit` with every row of up to `longest` milestones: starts and ends of two bases, of which one begins the other, and
/// a start that is passed over.
pub fn every_row_of_milestones(longest: usize, mut visit: impl FnMut(&Document)) {
    const KINDS: [(u16, &str); 5] = [
        (0, "\\qt-s"),
        (0, "\\qt-e"),
        (0, "\\qt1-s"),
        (0, "\\qt1-e"),
        (1, "\\qt-s"),
    ];
    for len in 0..=longest {
        for row in 0..KINDS.len().pow(len as u32) {
            let mut builder = Builder::default();
            let mut rest = row;
            for _ in 0..len {
                let (marker, name) = KINDS[rest % KINDS.len()];
                builder.open(marker, name);
                builder.close(kind::MARKER_CLOSE, "\\*");
                rest /= KINDS.len();
            }
            visit(&builder.under(&[entry("qt-s", 6, 0)]));
        }
    }
}

/// Calls `visit` with `nodes` nodes below the root, all Texts but two: Chapters or Verses whose numbers begin inside a
/// character, or only the second one's.
pub fn every_pair_of_labels(nodes: usize, mut visit: impl FnMut(&Document)) {
    for second in 1..=nodes {
        for first in 1..=second {
            for (text, kind) in [
                ("é3", kind::CHAPTER),
                ("é3", kind::VERSE),
                ("v 3", kind::VERSE),
            ] {
                visit(&pair_of_labels(nodes, (first, text, kind), second));
            }
        }
    }
}

fn pair_of_labels(nodes: usize, (first, text, kind): (usize, &str, u8), second: usize) -> Document {
    let mut builder = Builder::default();
    for place in 1..=nodes {
        match place {
            place if place == second => builder.leaf(kind::VERSE, 0, "é3", 3),
            place if place == first => builder.leaf(kind, 0, text, 3),
            _ => builder.leaf(kind::TEXT, 0, "x", 0),
        };
    }
    builder.under(&[entry("v", 2, 0)])
}

/// Calls `visit` with two Texts of every start and length that lie in a short source with characters of one to four bytes, or
/// leave it.
pub fn every_pair_of_spans(mut visit: impl FnMut(&Document)) {
    let source = "aé字😀";
    let ends = 0..=source.len() as u32 + 1;
    let mut document = Document {
        table: table_text(&[]),
        source: source.as_bytes().to_vec(),
        tape: Vec::new(),
    };
    let spans: Vec<(u32, u32)> = ends
        .clone()
        .flat_map(|start| ends.clone().map(move |len| (start, len)))
        .collect();
    for one in &spans {
        for other in &spans {
            let [one, other] = [one, other].map(|&(start, len)| node(kind::TEXT, 0, start, len, 0));
            document.set_nodes(&[node(kind::ROOT, 0, 0, 0, 3), one, other]);
            visit(&document);
        }
    }
}

#[cfg(test)]
mod tests {
    use super::*;
    use crate::published::{Validated, try_validate};
    use crate::refusals::refusal;

    #[test]
    fn one_start_stays_unclosed() {
        let mut count = 0;
        every_pair_of_bases(3, |document| {
            let Validated::Findings(found) = try_validate(document).unwrap() else {
                panic!("a sum past 32 bits");
            };
            let unclosed = found.iter().filter(|found| found.code == 16);
            assert_eq!(unclosed.count(), 1);
            count += 1;
        });
        assert_eq!(count, 2 * 4 * (1 + 2 + 3 + 4));
    }

    #[test]
    fn rows_are_of_each_length() {
        let mut lengths = [0; 4];
        every_row_of_milestones(3, |document| lengths[document.node_count() / 2] += 1);
        assert_eq!(lengths, [1, 5, 25, 125]);
    }

    #[test]
    fn labels_are_refused() {
        let mut count = 0;
        every_pair_of_labels(5, |document| {
            let (number, _) = refusal(document, usize::MAX, usize::MAX).unwrap();
            assert_eq!(number, 9);
            count += 1;
        });
        assert_eq!(count, 3 * 15);
    }

    #[test]
    fn spans_are_accepted_and_refused() {
        let mut counts = [0, 0];
        every_pair_of_spans(|document| {
            match refusal(document, usize::MAX, usize::MAX) {
                None => counts[0] += 1,
                Some((number, _)) => {
                    assert_eq!(number, 6);
                    counts[1] += 1;
                }
            };
        });
        // A span is good if both its ends are among the five places between characters.
        assert_eq!(counts, [15 * 15, 144 * 144 - 15 * 15]);
    }
}
