//! Shapes that make a check take long, each up to the limits. No two spans overlap.

use super::markers::{MARKERS, marker};
use crate::document::{Document, Entry, kind};
use crate::refusals::{DEEPEST, LARGEST_SOURCE, MOST_MARKERS, MOST_NODES};
use crate::samples::{Builder, entry};

/// A shape by its name. Its documents have a share of its largest size: all of it by 1, half of it by 2.
pub struct Shape {
    pub name: &'static str,
    pub document: fn(usize) -> Document,
}

/// Each name with the function that makes the document.
macro_rules! list {
    ($($name:literal: $document:expr,)*) => {
        vec![$(Shape { name: $name, document: $document }),*]
    };
}
pub(super) use list;

/// All shapes.
pub fn shapes() -> Vec<Shape> {
    [
        chapters_and_milestones(),
        runs_of_blanks(),
        long_spans(),
        many_of_one(),
    ]
    .into_iter()
    .flatten()
    .collect()
}

fn chapters_and_milestones() -> Vec<Shape> {
    list! {
        "chapters in order": |by| chapters(by, |k| k),
        "chapters, the last first": |by| chapters(by, |k| MOST_NODES - k),
        "chapters 65,536 apart": |by| chapters(by, |k| k << 16),
        "chapters all over 32 bits": |by| chapters(by, |k| k * 2_654_435_761 % (1 << 32)),
        "chapters, all of number 1": |by| chapters(by, |_| 1),
        "starts of one base": |by| milestones(by, |_, _| ("qt".into(), 's')),
        "starts of one base, then their ends": |by| milestones(by, halves(one, one)),
        "starts of two bases in turn, then ends of one": |by| milestones(by, halves(two, one)),
        "starts of short bases, then ends of others": |by| milestones(by, halves(short, |k| short(k + 50_000))),
        "starts of long bases, then ends of others": |by| milestones(by, halves(long, |k| long(k + 50_000))),
        "starts of bases alike at both ends, then their ends": |by| milestones(by, halves(middle, middle)),
    }
}

fn runs_of_blanks() -> Vec<Shape> {
    list! {
        "a verse, 1,000 blanks, its number; again and again": |by| numbers(by, 1_000, 1),
        "a verse, 32,000 blanks, 11,000 numbers": |by| numbers(by, 32_000 / by, 11_000 / by),
        "a paragraph of verses, 15 blanks after each": |by| numbers(by, 15, 0),
        "a word of 65,000 blanks": |by| words(by, MOST_NODES / by - 3),
        "words of 1,000 blanks": |by| words(by, 1_000),
        "words of nothing": |by| words(by, 0),
    }
}

fn long_spans() -> Vec<Shape> {
    list! {
        "an attribute of 1 MiB: pairs": |by| attribute(by, "|", "a=\"b\" ", ""),
        "an attribute of 1 MiB: values without quotes": |by| attribute(by, "|", "= ", ""),
        "an attribute of 1 MiB: a value without its end": |by| attribute(by, "|a=\"", "x", ""),
        "an attribute of 1 MiB: a value of escaped quotes": |by| attribute(by, "|a=\"", "\\\"", "\""),
        "an attribute of 1 MiB: a key": |by| attribute(by, "|", "κ", "=\"x\""),
        "an attribute of 1 MiB: blanks": |by| attribute(by, "|", " ", ""),
        "an attribute of 1 MiB: blanks of three bytes": |by| attribute(by, "|", "\u{3000}", ""),
        "a name of 1 MiB": |by| long_name(by, "a"),
        "a name of 1 MiB, three bytes a letter": |by| long_name(by, "字"),
        "a text of 1 MiB, blank": |by| letters(by, " "),
        "a text of 1 MiB, two bytes a letter": |by| letters(by, "ж"),
        "a text of 1 MiB, three bytes a letter": |by| letters(by, "字"),
        "a text of 1 MiB, four bytes a letter": |by| letters(by, "𐀀"),
        "a text of 1 MiB, one byte and three in turn": |by| letters(by, "a’"),
        "verses with numbers of 4,000 digits": digits,
    }
}

fn many_of_one() -> Vec<Shape> {
    list! {
        "a row of cells in order": |by| row(by, |k| k),
        "a row of cells, all of column 1": |by| row(by, |_| 1),
        "markers 64 deep, 30 texts at each level": nested,
        "verses with four findings each": faulty_verses,
        "identifications of unknown books": identifications,
        "markers of notes outside a note": |by| inlines(by, "xdc", ""),
        "bare values at markers without a default": |by| inlines(by, "nd", "|x"),
        "texts without a byte": empty_texts,
        "512 markers, one node": full_table,
    }
}

/// Writes blocks of so many nodes each, as many as fit beside those there are and `kept` more.
fn repeat(
    builder: &mut Builder,
    by: usize,
    (block, kept): (usize, usize),
    mut write: impl FnMut(&mut Builder, usize),
) {
    let room = MOST_NODES / by - builder.nodes.len() - kept;
    for k in 0..room / block {
        write(builder, k);
    }
}

fn chapters(by: usize, number: fn(usize) -> usize) -> Document {
    let mut builder = Builder::default();
    repeat(&mut builder, by, (1, 0), |builder, k| {
        let number = number(k + 1);
        builder.leaf(
            kind::CHAPTER,
            marker("c"),
            &format!("\\c {number}\n"),
            number as u32,
        );
    });
    builder.under(&MARKERS)
}

/// Milestones, each of a base and a letter that its place and the number of all give.
fn milestones(by: usize, name: impl Fn(usize, usize) -> (String, char)) -> Document {
    let mut builder = Builder::default();
    let all = (MOST_NODES / by - 1) / 2;
    repeat(&mut builder, by, (2, 0), |builder, k| {
        let (base, letter) = name(k, all);
        builder.open(marker("qt-s"), &format!("\\{base}-{letter}"));
        builder.close(kind::MARKER_CLOSE, "\\*");
    });
    builder.under(&MARKERS)
}

/// Starts in the first half, ends in the second, each by its place in its half: where both have the same bases, an end is that of
/// the first start which is open still.
fn halves(
    start: fn(usize) -> String,
    end: fn(usize) -> String,
) -> impl Fn(usize, usize) -> (String, char) {
    move |k, all| match k.checked_sub(all / 2) {
        None => (start(k), 's'),
        Some(k) => (end(k), 'e'),
    }
}

fn one(_: usize) -> String {
    "qa".into()
}

fn two(k: usize) -> String {
    ["qa", "qb"][k % 2].into()
}

fn short(k: usize) -> String {
    format!("z{k:05}")
}

/// As long as 32,767 of them can be, and alike but for their ends.
fn long(k: usize) -> String {
    format!("zzzzzzzzzzzzzzzzzzzzzz{k:05}")
}

/// As long, and alike but for their middles.
fn middle(k: usize) -> String {
    format!("zzzzzzzzzzz{k:05}zzzzzzzzzzz")
}

/// As long as 65,535 of them can be beside markers.
const BLANKS: &str = "            ";

/// A paragraph of blocks: a verse, blank texts, alternate numbers.
fn numbers(by: usize, blanks: usize, numbers: usize) -> Document {
    let mut builder = Builder::default();
    builder.leaf(kind::CHAPTER, marker("c"), "\\c 1\n", 1);
    builder.open(marker("p"), "\\p");
    repeat(
        &mut builder,
        by,
        (1 + blanks + 3 * numbers, 1),
        |builder, k| {
            builder.leaf(
                kind::VERSE,
                marker("v"),
                &format!("\\v {} ", k + 1),
                k as u32 + 1,
            );
            (0..blanks).for_each(|_| _ = builder.text(BLANKS));
            for _ in 0..numbers {
                builder.open(marker("va"), "\\va").text(" 3");
                builder.close(kind::MARKER_CLOSE, "\\va*");
            }
        },
    );
    builder.under(&MARKERS)
}

fn words(by: usize, blanks: usize) -> Document {
    let mut builder = Builder::default();
    repeat(&mut builder, by, (blanks + 2, 0), |builder, _| {
        builder.open(marker("w"), "\\w");
        (0..blanks).for_each(|_| _ = builder.text(BLANKS));
        builder.close(kind::MARKER_CLOSE, "\\w*");
    });
    builder.under(&MARKERS)
}

/// A text of at most so many bytes: one unit over and over between two others.
pub(super) fn long_text(bytes: usize, begin: &str, unit: &str, end: &str) -> String {
    let room = bytes - begin.len() - end.len();
    format!("{begin}{}{end}", unit.repeat(room / unit.len()))
}

/// A text as long as a source can be but for a few markers.
fn longest(by: usize, begin: &str, unit: &str, end: &str) -> String {
    long_text(LARGEST_SOURCE / by - 16, begin, unit, end)
}

fn attribute(by: usize, begin: &str, unit: &str, end: &str) -> Document {
    let mut builder = Builder::default();
    builder.open(marker("w"), "\\w").text(" x");
    builder.leaf(kind::ATTRIBUTE, 0, &longest(by, begin, unit, end), 0);
    builder.close(kind::MARKER_CLOSE, "\\w*");
    builder.under(&MARKERS)
}

/// A milestone start, since that one's name is read most often.
fn long_name(by: usize, letter: &str) -> Document {
    let mut builder = Builder::default();
    builder.open(marker("qt-s"), &longest(by, "\\", letter, "-s"));
    builder.close(kind::MARKER_CLOSE, "\\*");
    builder.under(&MARKERS)
}

fn letters(by: usize, letter: &str) -> Document {
    let mut builder = Builder::default();
    builder.text(&longest(by, "", letter, ""));
    builder.under(&MARKERS)
}

/// Zeros, since other digits soon leave the 32 bits where reading can end.
fn digits(by: usize) -> Document {
    let zeros = "0".repeat(4_000);
    let mut builder = Builder::default();
    builder.leaf(kind::CHAPTER, marker("c"), "\\c 1\n", 1);
    builder.open(marker("p"), "\\p");
    for k in 1..=LARGEST_SOURCE / by / 4_010 {
        builder.leaf(
            kind::VERSE,
            marker("v"),
            &format!("\\v {zeros}{k}\n"),
            k as u32,
        );
    }
    builder.under(&MARKERS)
}

fn row(by: usize, column: fn(usize) -> usize) -> Document {
    let mut builder = Builder::default();
    builder.open(marker("tr"), "\\tr");
    repeat(&mut builder, by, (2, 1), |builder, k| {
        builder.open(marker("tc"), &format!("\\tc{}", column(k + 1)));
        builder.end();
    });
    builder.under(&MARKERS)
}

fn nested(by: usize) -> Document {
    const TEXTS: usize = 15;
    let mut builder = Builder::default();
    let texts = |builder: &mut Builder| (0..TEXTS).for_each(|_| _ = builder.text("a "));
    repeat(
        &mut builder,
        by,
        (DEEPEST * (2 + 2 * TEXTS), 0),
        |builder, _| {
            for _ in 0..DEEPEST {
                texts(builder);
                builder.open(marker("nd"), "\\nd");
            }
            for _ in 0..DEEPEST {
                builder.close(kind::MARKER_CLOSE, "\\nd*");
                texts(builder);
            }
        },
    );
    builder.under(&MARKERS)
}

/// Inside a character marker, glued, with a leading zero, and the same number again.
fn faulty_verses(by: usize) -> Document {
    let mut builder = Builder::default();
    builder.open(marker("nd"), "\\nd");
    repeat(&mut builder, by, (1, 1), |builder, _| {
        builder.leaf(kind::VERSE, marker("v"), "\\v07 ", 7);
    });
    builder.under(&MARKERS)
}

fn identifications(by: usize) -> Document {
    let mut builder = Builder::default();
    repeat(&mut builder, by, (3, 0), |builder, _| {
        builder.open(marker("id"), "\\id").text(" XXH\n").end();
    });
    builder.under(&MARKERS)
}

fn inlines(by: usize, name: &str, attribute: &str) -> Document {
    let mut builder = Builder::default();
    let block = 3 + usize::from(!attribute.is_empty());
    repeat(&mut builder, by, (block, 0), |builder, _| {
        builder.open(marker(name), &format!("\\{name}")).text(" x");
        if !attribute.is_empty() {
            builder.leaf(kind::ATTRIBUTE, 0, attribute, 0);
        }
        builder.close(kind::MARKER_CLOSE, "\\*");
    });
    builder.under(&MARKERS)
}

fn empty_texts(by: usize) -> Document {
    let mut builder = Builder::default();
    repeat(&mut builder, by, (1, 0), |builder, _| _ = builder.text(""));
    builder.under(&MARKERS)
}

/// Names of the longest form that differ at their ends.
fn full_table(by: usize) -> Document {
    let names: Vec<String> = (0..MOST_MARKERS / by)
        .map(|k| format!("zzzzzzzzzzzzz{k:03}"))
        .collect();
    let entries: Vec<Entry<'_>> = names.iter().map(|name| entry(name, 0, 1)).collect();
    Builder::default().text("x").under(&entries)
}

#[cfg(test)]
mod tests {
    use super::*;
    use crate::refusals::refusal;

    #[test]
    fn every_shape_is_accepted() {
        for shape in shapes() {
            for by in [1, 2] {
                let document = (shape.document)(by);
                let n = document.node_count();
                assert_eq!(refusal(&document, n, n), None, "{} by {by}", shape.name);
            }
        }
    }

    #[test]
    fn every_shape_nearly_fills_a_limit() {
        for shape in shapes() {
            let document = (shape.document)(1);
            let table = document.table.len() > 45 * MOST_MARKERS;
            let source = document.source.len() > LARGEST_SOURCE - 20_000;
            let nodes = document.node_count() > MOST_NODES - 2_100;
            assert!(table || source || nodes, "{}", shape.name);
        }
    }

    #[test]
    fn half_a_shape_has_half_the_size() {
        for shape in shapes() {
            let [whole, half] = [1, 2].map(|by| (shape.document)(by).size() - by_table(&shape));
            let share = whole as f64 / half as f64;
            assert!((1.9..2.1).contains(&share), "{} {share}", shape.name);
        }
    }

    /// The bytes of the table, where that doesn't grow with the shape.
    fn by_table(shape: &Shape) -> usize {
        let [whole, half] = [1, 2].map(|by| (shape.document)(by).table.len());
        if whole == half { whole } else { 0 }
    }

    #[test]
    fn no_two_spans_overlap() {
        for shape in shapes() {
            let document = (shape.document)(2);
            let mut end = 0;
            for node in document.nodes().skip(1) {
                assert_eq!(u64::from(node.start), end, "{}", shape.name);
                end = node.end();
            }
        }
    }
}
