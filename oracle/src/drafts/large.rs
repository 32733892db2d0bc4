//! Large texts: whole books, and shapes that make a reader take long or need much memory, each up to the limits.

use super::Draft;
use crate::books::{MARKERS, Manner, Style, filled};
use crate::document::{CATEGORIES, Document, Entry, entries, kind, table_text};
use crate::refusals::{LARGEST_SOURCE, MOST_MARKERS, marker_name};
use crate::samples::entry;

/// A text by its name. Its drafts have a share of its largest size: all of it by 1, half of it by 2.
pub struct Large {
    pub name: &'static str,
    pub draft: fn(usize) -> Draft,
}

/// Each name with the function that makes the draft.
macro_rules! list {
    ($($name:literal: $draft:expr,)*) => {
        vec![$(Large { name: $name, draft: $draft }),*]
    };
}

/// All of them.
pub fn large() -> Vec<Large> {
    let mut list = books();
    list.extend(shapes());
    list
}

/// Those that aren't books.
pub fn shapes() -> Vec<Large> {
    [nestings(), long_pieces(), many_pieces()]
        .into_iter()
        .flatten()
        .collect()
}

/// Those that are books.
pub fn books() -> Vec<Large> {
    list! {
        "a book of prose": |by| book(by, Style::Plain, Manner::Prose, 57_000),
        "a book of poetry": |by| book(by, Style::Plain, Manner::Poetry, 65_000),
        "a book of lists": |by| book(by, Style::Plain, Manner::Lists, 65_000),
        "a book word by word": |by| book(by, Style::WordLevel, Manner::Gospel, 65_000),
    }
}

fn nestings() -> Vec<Large> {
    list! {
        "the deepest nesting": |by| nested(by, "\\a", "\\a*", ""),
        "the deepest nesting of two names": |by| nested(by, "\\a\\b", "\\b*\\a*", ""),
        "the deepest nesting of three names": |by| nested(by, "\\a\\b\\a1", "\\a1*\\b*\\a*", ""),
        "the deepest nesting, a name for each": |by| own_names(by, 1).text(),
        "the deepest nesting, a name for each, the last two closes exchanged": |by| own_names(by, 1).exchanged(),
        "the deepest nesting, another's close in the middle": |by| nested(by, "\\a", "\\a*", "\\b*"),
        "the most unclosed opens": |by| repeated(by, "", "\\a", ""),
        "the most unclosed opens, then a block": |by| repeated(by, "", "\\a", "\\p"),
        "opens and closes in turn": |by| repeated(by, "", "\\a\\a*", ""),
        "opens and closes in turn in a block": |by| repeated(by, "\\p", "\\a\\a*", ""),
        "deep, then closes and opens in turn": |by| saw(by, 1),
        "deep, then 64 closes and 64 opens in turn": |by| saw(by, 64),
        "deep, then 65 closes and 65 opens in turn": |by| saw(by, 65),
        "deep, then 257 closes and 257 opens in turn": |by| saw(by, 257),
        "deep, then 1,025 closes and 1,025 opens in turn": |by| saw(by, 1_025),
        "deep, then 20,000 closes and 20,000 opens in turn": |by| saw(by, 20_000),
        "deep, then 1,000 closes and 1,000 opens in turn, a name for each": |by| own_names(by, 1_000).text(),
        "deep, then 20,000 closes and 20,000 opens in turn, a name for each": |by| own_names(by, 20_000).text(),
        "opens with names of 1,000 bytes": |by| nested(by, &long_name("\\a", ""), &long_name("\\a", "*"), ""),
    }
}

fn long_pieces() -> Vec<Large> {
    list! {
        "a run of 1 MiB": |by| repeated(by, "", "x", ""),
        "a run of 1 MiB, three bytes a letter": |by| repeated(by, "", "字", ""),
        "a run of 1 MiB: bars": |by| repeated(by, "", "|", ""),
        "a run of 1 MiB: blanks": |by| repeated(by, "", " ", ""),
        "a run of 1 MiB: blanks of three bytes": |by| repeated(by, "", "\u{3000}", ""),
        "an attribute of 1 MiB": |by| repeated(by, "\\a ", "|", "\\a*"),
        "a milestone's attribute of 1 MiB": |by| repeated(by, "\\m |", "x", "\\*"),
        "a milestone's attribute of 1 MiB without its end": |by| repeated(by, "\\m |", "x", ""),
        "a milestone, blanks and no attribute": |by| repeated(by, "\\m", " ", "\\*"),
        "a milestone, blanks and an attribute": |by| repeated(by, "\\m", " ", "|\\*"),
        "a verse and blanks": |by| repeated(by, "\\v", "\u{2003}", ""),
        "a number of 1 MiB: zeros": |by| repeated(by, "\\v ", "0", "7"),
        "a number of 1 MiB: nines": |by| repeated(by, "\\v ", "9", ""),
        "a glued number of 1 MiB": |by| repeated(by, "\\c", "0", "3a"),
        "a name of 1 MiB": |by| repeated(by, "\\", "x", ""),
        "a name of 1 MiB: digits": |by| repeated(by, "\\a", "1", " "),
        "a name of 512 KiB and its close": |by| nested_names(by),
    }
}

fn many_pieces() -> Vec<Large> {
    list! {
        "backslashes": |by| repeated(by, "", "\\", ""),
        "blocks": |by| repeated(by, "", "\\p", ""),
        "blocks and chapters in turn": |by| repeated(by, "", "\\p\\c", ""),
        "verses": |by| repeated(by, "", "\\v", ""),
        "glued verses": |by| repeated(by, "\\p", "\\v1", ""),
        "verses with a word": |by| repeated(by, "\\p", "\\v 1 a", "\n"),
        "milestones": |by| repeated(by, "", "\\m\\*", ""),
        "milestones with attributes": |by| repeated(by, "", "\\m |\\*", ""),
        "attributes in an open": |by| repeated(by, "\\a", " |\\v1", "\\a*"),
        "closes behind an open": |by| repeated(by, "\\a", "\\a*", ""),
        "one unknown marker at the end": |by| repeated(by, "\\p", "\\a\\a*", "\\zz"),
        "the last of 512 markers": last_of_the_table,
    }
}

const ENTRIES: [Entry<'static>; 6] = [
    entry("p", 3, 2),
    entry("c", 1, 0),
    entry("v", 2, 0),
    entry("a", 4, 0),
    entry("b", 5, 1),
    entry("m", 6, 0),
];

/// One unit over and over between two others.
fn repeated(by: usize, begin: &str, unit: &str, end: &str) -> Draft {
    let room = LARGEST_SOURCE / by - begin.len() - end.len();
    let text = format!("{begin}{}{end}", unit.repeat(room / unit.len()));
    Draft::new(&ENTRIES, text)
}

/// As many opens as closes, and something between the two.
fn nested(by: usize, open: &str, close: &str, between: &str) -> Draft {
    let room = LARGEST_SOURCE / by - between.len();
    let deep = room / (open.len() + close.len());
    let text = format!("{}{between}{}", open.repeat(deep), close.repeat(deep));
    Draft::new(&ENTRIES, text)
}

/// A third of the text opens and closes in the end; between the two so many closes and as many opens, over and over.
fn saw(by: usize, width: usize) -> Draft {
    let (open, close) = ("\\a", "\\a*");
    let pairs = LARGEST_SOURCE / by / (open.len() + close.len());
    let width = width.min(pairs / 3);
    let teeth = pairs * 2 / 3 / width;
    let deep = pairs - teeth * width;
    let tooth = close.repeat(width) + &open.repeat(width);
    let text = open.repeat(deep) + &tooth.repeat(teeth) + &close.repeat(deep);
    Draft::new(&ENTRIES, text)
}

/// Opens and closes of which no two opens have the same name: a reader that takes one open for another doesn't pass.
struct OwnNames {
    text: String,
    /// The closes at the end, the innermost first.
    closes: Vec<String>,
}

impl OwnNames {
    fn text(mut self) -> Draft {
        self.text.extend(self.closes);
        Draft::new(&ENTRIES, self.text)
    }

    fn exchanged(mut self) -> Draft {
        let last = self.closes.len() - 1;
        self.closes.swap(last - 1, last);
        self.text()
    }
}

/// So many opens, closes and opens again, then the closes of what is open, with a name for each open.
fn climb(up: usize, down: usize, again: usize) -> Draft {
    let mut names = (0..up + again).map(|number| format!("\\a{number}"));
    let mut open: Vec<String> = names.by_ref().take(up).collect();
    let mut text = open.concat();
    for closed in open.split_off(up - down).iter().rev() {
        text.push_str(&format!("{closed}*"));
    }
    text.extend(names.by_ref().inspect(|name| open.push(name.clone())));
    text.extend(open.iter().rev().map(|name| format!("{name}*")));
    Draft::new(&ENTRIES, text)
}

/// Nestings at both sides of each power of two, where a reader's memory for the innermost opens may end: straight ones, and ones
/// that come down and go up again.
pub fn climbs() -> impl Iterator<Item = Draft> {
    let straight = (0..=16).flat_map(|power| {
        let most = 1usize << power;
        (most - 1..=most + 2).map(|up| climb(up, 0, 0))
    });
    let again = (3..=13).flat_map(|power| {
        let most = 1usize << power;
        let ups = [most + 1, 2 * most + 1];
        ups.into_iter().flat_map(move |up| {
            (most - 1..=most + 1).flat_map(move |down| {
                (most - 1..=most + 2).map(move |again| climb(up, down, again))
            })
        })
    });
    straight.chain(again)
}

/// As `saw`, with a level of its own for each open; with a width of 1 opens alone.
fn own_names(by: usize, width: usize) -> OwnNames {
    let name = |number: usize| format!("\\a{number}");
    let mut room = LARGEST_SOURCE / by;
    let mut names = Vec::new();
    while let Some(rest) = room.checked_sub(2 * name(names.len()).len() + 1) {
        names.push(name(names.len()));
        room = rest;
    }
    let width = width.min(names.len() / 3);
    let teeth = match width {
        1 => 0,
        _ => names.len() * 2 / 3 / width,
    };
    let mut names = names.into_iter();
    let deep = names.len() - teeth * width;
    let mut open: Vec<String> = names.by_ref().take(deep).collect();
    let mut text = open.concat();
    for _ in 0..teeth {
        for closed in open.split_off(open.len() - width).iter().rev() {
            text.push_str(closed);
            text.push('*');
        }
        open.extend(names.by_ref().take(width));
        text.push_str(&open[open.len() - width..].concat());
    }
    let closes = open.iter().rev().map(|name| format!("{name}*"));
    OwnNames {
        text,
        closes: closes.collect(),
    }
}

fn long_name(begin: &str, end: &str) -> String {
    format!("{begin}{}{end}", "1".repeat(1_000))
}

fn nested_names(by: usize) -> Draft {
    let name = "1".repeat(LARGEST_SOURCE / by / 2 - 4);
    Draft::new(&ENTRIES, format!("\\a{name} \\a{name}*"))
}

fn last_of_the_table(by: usize) -> Draft {
    let mut entries = vec![entry("abcdefghijklmnop", 4, 0); MOST_MARKERS - 1];
    entries.push(entry("abcdefghijklmnoq", 3, 0));
    let mut draft = repeated(by, "", "\\abcdefghijklmnoq ", "");
    draft.table = table_text(&entries);
    draft
}

/// A book of about so many nodes.
fn book(by: usize, style: Style, manner: Manner, nodes: usize) -> Draft {
    of_book(&filled(style, manner, nodes / by))
}

/// The text of a book, written so that the reader takes it.
pub fn of_book(document: &Document) -> Draft {
    Draft::new(&MARKERS, with_closes(document))
}

/// The source of a document in which every character and note has its close: a parser ends those of a note or a row where the
/// next one begins, the reader doesn't.
fn with_closes(document: &Document) -> String {
    let source = std::str::from_utf8(&document.source).expect("a book is UTF-8");
    let entries = entries(&document.table).expect("a book's table has its layout");
    let mut text = String::new();
    let mut open = Vec::new();
    for node in document.nodes().skip(1) {
        let part = &source[node.start as usize..node.end() as usize];
        text.push_str(part);
        match node.kind {
            kind::MARKER_OPEN => open.push((marker_name(part), node.marker as usize)),
            kind::MARKER_CLOSE => _ = open.pop(),
            kind::BLOCK_END => {
                let (name, marker) = open.pop().expect("a close follows its open");
                if matches!(CATEGORIES[entries[marker].category], "character" | "note") {
                    text.push_str(&format!("\\{name}*"));
                }
            }
            _ => {}
        }
    }
    text
}

#[cfg(test)]
mod tests {
    use super::*;
    use crate::refusals::MOST_NODES;

    #[test]
    fn each_shape_is_as_large_as_it_may_be() {
        for Large { name, draft } in shapes() {
            for by in [1, 2] {
                let bytes = draft(by).text.len();
                let most = LARGEST_SOURCE / by;
                let fits = (most - 2_500..=most).contains(&bytes);
                assert!(fits, "{name} by {by}: {bytes} of {most}");
            }
        }
    }

    #[test]
    fn climbs_have_their_names_in_order() {
        let text = String::from_utf8(climb(3, 2, 1).text).unwrap();
        assert_eq!(text, "\\a0\\a1\\a2\\a2*\\a1*\\a3\\a3*\\a0*");
        let most = climbs().map(|draft| draft.text.len()).max();
        assert!(most.is_some_and(|most| (800_000..LARGEST_SOURCE).contains(&most)));
    }

    #[test]
    fn books_are_read_whole_and_the_check_takes_their_tapes() {
        for Large { name, draft } in books() {
            let n = draft(1).read(usize::MAX).unwrap().len();
            assert!((55_000..=MOST_NODES).contains(&n), "{name}: {n}");
        }
    }

    /// Of the largest ones, those that are turned back.
    const REFUSED: [(&str, (u32, u64)); 11] = [
        (
            "the deepest nesting, another's close in the middle",
            (17, (ALL - 3) / 5 * 2),
        ),
        (
            "the deepest nesting, a name for each, the last two closes exchanged",
            (17, ALL - 14),
        ),
        ("the most unclosed opens", (17, ALL)),
        ("the most unclosed opens, then a block", (17, ALL - 2)),
        ("a milestone's attribute of 1 MiB without its end", (17, 0)),
        ("a milestone, blanks and no attribute", (17, 0)),
        ("a name of 1 MiB", (16, 0)),
        ("a name of 1 MiB: digits", (17, ALL)),
        ("backslashes", (16, 0)),
        ("closes behind an open", (17, 5)),
        ("one unknown marker at the end", (16, ALL - 4)),
    ];
    const ALL: u64 = LARGEST_SOURCE as u64;

    #[test]
    fn shapes_are_turned_back_where_they_are_meant_to_be() {
        for Large { name, draft } in large() {
            let refused = draft(1).read(usize::MAX).err();
            let meant = REFUSED.iter().find(|(shape, _)| *shape == name);
            assert_eq!(refused, meant.map(|&(_, refused)| refused), "{name}");
        }
    }

    #[test]
    fn shapes_have_the_nodes_that_they_are_meant_to_have() {
        let pairs = 2 * (LARGEST_SOURCE / 5) + 1;
        for (name, nodes) in [
            ("blocks", LARGEST_SOURCE + 1),
            ("the deepest nesting", pairs),
            ("the deepest nesting, a name for each", 2 * 71_386 + 1),
            (
                "deep, then 1,000 closes and 1,000 opens in turn, a name for each",
                2 * 71_386 + 1,
            ),
            ("opens and closes in turn", pairs),
            ("deep, then 257 closes and 257 opens in turn", pairs),
            ("verses", LARGEST_SOURCE / 2 + 1),
            ("attributes in an open", 3 + (LARGEST_SOURCE - 5) / 5 * 3),
            ("milestones", LARGEST_SOURCE / 2 + 1),
            ("a name of 512 KiB and its close", 4),
            ("a run of 1 MiB: blanks", 2),
            ("a verse and blanks", 2),
            ("a milestone, blanks and an attribute", 5),
        ] {
            let large = large().into_iter().find(|large| large.name == name);
            let draft = (large.expect("a name of the list").draft)(1);
            assert_eq!(draft.read(usize::MAX).unwrap().len(), nodes, "{name}");
        }
    }
}
