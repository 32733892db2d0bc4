//! Single functions of the published code, for comparisons below a whole document.

use crate::cst::Cursor;
use crate::document::{Document, kind};
use crate::published::{Found, form_and_numbers, found, with_published, with_table};
use crate::serialize::attached_numbers;
use crate::serialize::vref::BookId;
use crate::validate::VersePart;
use crate::{marker, validate};

/// A verse position: its number, and its letter's byte or 0.
pub type Position = (u32, u8);

fn position(part: VersePart) -> Position {
    (part.num, part.suffix.map_or(0, |letter| letter as u8))
}

fn part((num, letter): Position) -> VersePart {
    VersePart {
        num,
        suffix: (letter != 0).then_some(letter as char),
    }
}

pub fn parse_verse_part(label: &str) -> Option<Position> {
    validate::parse_verse_part(label).map(position)
}

pub fn parse_verse_range_end(label: &str) -> Option<Position> {
    validate::parse_verse_range_end(label).map(position)
}

pub fn next_expected(of: Position) -> Position {
    position(part(of).next_expected())
}

pub fn is_valid_verse_sequence(expected: Position, actual: Position) -> bool {
    validate::is_valid_verse_sequence(part(expected), part(actual))
}

pub fn table_cell_columns(name: &str) -> Option<(u32, u32)> {
    validate::table_cell_columns(name)
}

pub fn milestone_base(name: &str) -> Option<&str> {
    validate::milestone_base(name)
}

pub fn is_front_matter_code(code: &str) -> bool {
    validate::is_front_matter_code(code)
}

pub fn is_note_only_marker(name: &str) -> bool {
    validate::is_note_only_marker(name)
}

pub fn strip_level_suffix(name: &str) -> &str {
    marker::strip_level_suffix(name)
}

pub fn default_attribute(name: &str) -> Option<&'static str> {
    marker::default_attribute(name)
}

/// The place of a book code in the published list.
pub fn book(code: &str) -> Option<u8> {
    BookId::from_code(code).map(|book| book.0)
}

/// The marker that an accepted table text gives a name.
pub fn lookup(table: &[u8], name: &str) -> Option<u16> {
    with_table(table, |table| table.lookup(name).map(|id| id.0))
}

/// What the published cursor says of a node.
#[derive(Debug, PartialEq, Eq)]
pub struct Seen {
    pub text: Vec<u8>,
    pub name: Vec<u8>,
    pub first_child: Option<usize>,
    pub next_sibling: Option<usize>,
    pub children: Vec<usize>,
    pub number: Option<u32>,
    /// Category and role of its table entry, by their places in the published enums.
    pub info: Option<(u8, u8)>,
}

fn seen(c: Cursor<'_>) -> Seen {
    let place = |c: Cursor<'_>| c.idx as usize;
    Seen {
        text: c.text().into(),
        name: c.marker_name().into(),
        first_child: c.first_child().map(place),
        next_sibling: c.next_sibling().map(place),
        children: c.children().map(place).collect(),
        number: c.number(),
        info: c
            .marker_info()
            .map(|info| (info.category as u8, info.text_role as u8)),
    }
}

/// What the published cursor says of each node of an accepted document but the root, whose span
/// nothing checks.
pub fn seen_nodes(document: &Document) -> Vec<Seen> {
    let n = document.node_count();
    with_published(document, |root| (1..n).map(|i| seen(at(root, i))).collect())
}

fn at(root: Cursor<'_>, i: usize) -> Cursor<'_> {
    let mut c = root;
    c.idx = i as u32;
    c
}

fn is_open(c: Cursor<'_>) -> bool {
    c.kind() as u8 == kind::MARKER_OPEN
}

fn is_anchor(c: Cursor<'_>) -> bool {
    matches!(c.kind() as u8, kind::CHAPTER | kind::VERSE)
}

/// Each chapter and verse of a document that number 9 passes too: its label, and whether it is
/// glued to its marker.
pub fn labels(document: &Document) -> Vec<(usize, (Vec<u8>, bool))> {
    let n = document.node_count();
    with_published(document, |root| {
        let labelled = (1..n).map(|i| at(root, i)).filter(|&c| is_anchor(c));
        labelled
            .map(|c| {
                let read = validate::number_label(c);
                (c.idx as usize, (read.label.into(), read.glued))
            })
            .collect()
    })
}

/// A finding's severity, code, start, length, form and two numbers: its words but for its node.
pub type WordsWithoutNode = [u64; 7];

/// An open node taken as a row, whatever its name is.
pub struct Row {
    pub node: usize,
    /// The children that have columns.
    pub cells: usize,
    /// `None` where a cell's last column is 4,294,967,295, after which the published sum leaves 32
    /// bits.
    pub findings: Option<Vec<WordsWithoutNode>>,
}

/// What a function says of each open node.
fn of_open_nodes<T>(document: &Document, says: fn(Cursor<'_>) -> T) -> Vec<T> {
    let n = document.node_count();
    with_published(document, |root| {
        let nodes = (1..n).map(|i| at(root, i)).filter(|&c| is_open(c));
        nodes.map(says).collect()
    })
}

/// Each open node as a row.
pub fn rows(document: &Document) -> Vec<Row> {
    of_open_nodes(document, row)
}

fn row(tr: Cursor<'_>) -> Row {
    let children = tr.children().filter(|&c| is_open(c));
    let ends: Vec<u32> = children
        .filter_map(|c| table_cell_columns(c.marker_name()))
        .map(|(_, end)| end)
        .collect();
    Row {
        node: tr.idx as usize,
        cells: ends.len(),
        findings: (!ends.contains(&u32::MAX)).then(|| row_findings(tr)),
    }
}

fn row_findings(tr: Cursor<'_>) -> Vec<WordsWithoutNode> {
    let mut list = Vec::new();
    validate::validate_table_row(tr, &mut list);
    list.into_iter()
        .map(|one| words_without_node(found(one)))
        .collect()
}

fn words_without_node(it: Found) -> WordsWithoutNode {
    let (form, first, second) = form_and_numbers(it.code, &it.message).expect("a known message");
    let [severity, code, start, len] = [it.severity, it.code, it.start, it.len].map(u64::from);
    [severity, code, start, len, form, first, second]
}

/// The attributes of an open node.
pub struct Attributes {
    pub node: usize,
    /// The children that are Attributes.
    pub children: Vec<usize>,
    pub findings: Vec<WordsWithoutNode>,
}

/// The attributes of each open node.
pub fn attributes(document: &Document) -> Vec<Attributes> {
    of_open_nodes(document, attributes_of)
}

fn attributes_of(owner: Cursor<'_>) -> Attributes {
    let is_attribute = |c: &Cursor<'_>| c.kind() as u8 == kind::ATTRIBUTE;
    let mut list = Vec::new();
    validate::validate_attributes(owner, owner.marker_name(), &mut list);
    Attributes {
        node: owner.idx as usize,
        children: owner
            .children()
            .filter(is_attribute)
            .map(|c| c.idx as usize)
            .collect(),
        findings: list
            .into_iter()
            .map(|one| with_owner(words_without_node(found(one)), owner))
            .collect(),
    }
}

/// Code 32's first number is the owner's node, which the published code doesn't say.
fn with_owner(
    [severity, code, start, len, form, first, second]: WordsWithoutNode,
    owner: Cursor<'_>,
) -> WordsWithoutNode {
    let first = if code == 32 { owner.idx.into() } else { first };
    [severity, code, start, len, form, first, second]
}

/// A chapter or a verse among the children of the root or of an open node.
pub struct Anchor {
    pub parent: usize,
    pub node: usize,
    /// The starts of the numbers attached to it.
    pub starts: Vec<u64>,
    /// The start of each of the next siblings, up to four, and whether it is attached as a number.
    pub after: Vec<(u32, bool)>,
}

pub fn anchors(document: &Document) -> Vec<Anchor> {
    let n = document.node_count();
    with_published(document, |root| {
        let inner = (1..n).map(|i| at(root, i)).filter(|&c| is_open(c));
        let parents = std::iter::once(root).chain(inner);
        parents.flat_map(anchors_of).collect()
    })
}

fn anchors_of(parent: Cursor<'_>) -> Vec<Anchor> {
    let children = parent.children().filter(|&c| is_anchor(c));
    let anchor = |c: Cursor<'_>| Anchor {
        parent: parent.idx as usize,
        node: c.idx as usize,
        starts: attached_numbers(c)
            .map(|number| number.span().start.into())
            .collect(),
        after: std::iter::successors(c.next_sibling(), |c| c.next_sibling())
            .take(4)
            .map(|number| (number.span().start, validate::is_attached(c, number)))
            .collect(),
    };
    children.map(anchor).collect()
}

/// The numbers attached to the chapters and verses that stand among the root's children.
pub fn attached_at_top(document: &Document) -> usize {
    with_published(document, |root| {
        root.children()
            .filter(|&c| is_anchor(c))
            .map(|anchor| attached_numbers(anchor).count())
            .sum()
    })
}

#[cfg(test)]
mod tests {
    use super::*;
    use crate::document::{Entry, table_text};

    /// The position that follows a label, as the walk computes it.
    fn next_after(label: &str) -> Position {
        let start = parse_verse_part(label).unwrap();
        next_expected(parse_verse_range_end(label).unwrap_or(start))
    }

    fn passes(expected: Position, label: &str) -> bool {
        is_valid_verse_sequence(expected, parse_verse_part(label).unwrap())
    }

    #[test]
    fn trial_items_1_to_5_sequence() {
        assert!(passes((10, 0), "9a"));
        assert!(!passes((10, 0), "9"));
        assert!(passes((9, b'b'), "10"));
        assert!(!passes((9, b'b'), "9"));
        assert!(passes((10, 0), "10a"));
    }

    #[test]
    fn trial_items_6_to_8_next() {
        assert_eq!(next_after("3-5"), (6, 0));
        assert_eq!(next_after("3-"), (4, 0));
        assert_eq!(next_after("9z"), (9, 123));
    }

    #[test]
    fn trial_items_9_and_10_columns() {
        assert_eq!(table_cell_columns("tc1-2"), Some((1, 2)));
        assert_eq!(table_cell_columns("tc+1"), Some((1, 1)));
        assert_eq!(table_cell_columns("tc"), None);
        assert_eq!(table_cell_columns("tcr4294967296"), None);
    }

    #[test]
    fn trial_item_16_largest_number() {
        assert_eq!(parse_verse_part("4294967295"), Some((4294967295, 0)));
        assert_eq!(parse_verse_part("4294967296"), None);
    }

    #[test]
    fn trial_item_17_zero_width_space_is_not_blank() {
        assert_eq!(parse_verse_part("\u{2003}5"), Some((5, 0)));
        assert_eq!(parse_verse_part("\u{200B}5"), None);
    }

    #[test]
    fn lookup_tries_three_names_and_takes_the_first_equal_one() {
        let entry = |name| Entry {
            name,
            category: 4,
            role: 0,
        };
        let table = table_text(&[entry("q"), entry("v"), entry("q"), entry("tc")]);
        assert_eq!(lookup(&table, "q"), Some(0));
        assert_eq!(lookup(&table, "q2"), Some(0));
        assert_eq!(lookup(&table, "tc3-4"), Some(3));
        assert_eq!(lookup(&table, "v3b"), Some(1));
        assert_eq!(lookup(&table, "c3b"), None);
        assert_eq!(lookup(&table, "qx"), None);
        assert_eq!(lookup(b"", "q"), None);
    }

    #[test]
    fn books_and_names() {
        assert_eq!(book("GEN"), Some(0));
        assert_eq!(book("XXG"), Some(115));
        assert_eq!(book("gen"), None);
        assert!(is_front_matter_code("FRT") && !is_front_matter_code("XXA"));
        assert!(is_note_only_marker("fdc") && !is_note_only_marker("xo"));
        assert_eq!(default_attribute("qt-s"), Some("who"));
        assert_eq!(default_attribute("fig"), None);
        assert_eq!(milestone_base("-s"), Some(""));
        assert_eq!(milestone_base("ts"), None);
        assert_eq!(strip_level_suffix("tcr1-2"), "tcr");
        assert_eq!(strip_level_suffix("12"), "12");
    }
}
