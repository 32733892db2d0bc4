//! What a text and its answer show, read off text, table and nodes without the reader's own steps: each construct of the
//! documents, each way to be turned back.

use std::collections::BTreeMap;
use std::fmt::Write;

use super::Draft;
use crate::document::{CATEGORIES, Entry, Node, entries, kind};
use crate::parts::{lookup, parse_verse_part};
use crate::reading::Refused;
use crate::refusals::{DEEPEST, is_blank, marker_name};

/// All features, by what they say.
const FEATURES: [&str; 108] = [
    // Numbers 1 to 3.
    "1: the table",
    "2: too long",
    "3: no UTF-8",
    // Number 16.
    "16: a backslash at the end",
    "16: a backslash before a blank",
    "16: a backslash before a bar",
    "16: a backslash before a backslash",
    "16: a plus and a star",
    "16: two pluses",
    "16: an unknown marker",
    "16: an unknown close",
    "16: a marker of category other",
    "16: a close of category other",
    "16: with something open",
    "16: in the middle of an attribute",
    // Number 17.
    "17: a lone star, nothing open",
    "17: a lone star, something open",
    "17: a close of category identification",
    "17: a close of category chapter",
    "17: a close of category verse",
    "17: a close of category paragraph",
    "17: a close of category milestone",
    "17: a close, nothing open",
    "17: a close, another name innermost",
    "17: a close, another level innermost",
    "17: a close of what is open further out",
    "17: identification with something open",
    "17: paragraph with something open",
    "17: chapter with something open",
    "17: glued chapter with something open",
    "17: a block marker with a note open",
    "17: the end with a character open",
    "17: the end with a note open",
    "17: a milestone at the end",
    "17: a milestone, blanks to the end",
    "17: a milestone, blanks and a star",
    "17: a milestone, other text",
    "17: a milestone, a marker directly behind",
    "17: a milestone, attributes to the end",
    "17: a milestone, a marker behind attributes",
    "17: a milestone with something open",
    // Number 18.
    "18: no room",
    "18: one node short",
    "18: more nodes short",
    "exactly enough room",
    // Tables and whole texts.
    "the empty text",
    "a table without markers",
    "a name that stands twice",
    "an exact name before its level",
    "a node for each byte, and more",
    "over 64 deep",
    "64 deep",
    // Runs.
    "Text at the top",
    "Text in a block",
    "Text in a character",
    "Text in a note",
    "Text in a milestone",
    "blank Text",
    "Text with a bar at the top",
    "Text with a bar in a block",
    "Text behind the last close of a block",
    "Text and Attribute of one run",
    "Attribute in a character",
    "Attribute in a note",
    "Attribute in a milestone",
    "Attribute directly behind a name",
    "Attribute behind a close",
    "Attribute of a bar alone",
    "Attribute with two bars",
    "bytes over 127 in a run",
    // Opens and closes.
    "a plus on both",
    "a plus on the open",
    "a plus on the close",
    "a level on both",
    "a character at the top",
    "a character in a character",
    "a character in itself",
    "a character in a note",
    "a note in a character",
    "an empty character",
    "a milestone at the top",
    "a milestone in a block",
    "a milestone in a character or note",
    // Blocks.
    "a block ended by a block",
    "a block ended by identification",
    "a block ended by a chapter",
    "a block ended by the end",
    "an empty block",
    "a block with a level",
    "a block with a plus",
    // Numbers.
    "a chapter without a block before it",
    "a verse at the top",
    "a verse in a block",
    "a verse in a character",
    "a verse in a note",
    "glued by its level",
    "glued with a letter",
    "glued and too large",
    "no blank and no word",
    "blanks and no word",
    "a word with a bar",
    "a word with a star",
    "a word up to a backslash",
    "a word over a line's end",
    "a word behind a blank of several bytes",
    "a word without a leading number",
    "a word that is too large",
    "a number with a plus",
];

/// How many texts show each feature.
#[derive(Clone, Debug, Default, PartialEq, Eq)]
pub struct Shown {
    counts: BTreeMap<&'static str, u64>,
    texts: u64,
    read: u64,
}

impl Shown {
    /// Counts a text with what a reader that has room for so many nodes owes it.
    pub fn add(&mut self, draft: &Draft, room: usize, answer: &Result<Vec<Node>, Refused>) {
        let mut list = Vec::new();
        match answer {
            Ok(nodes) => of_nodes(draft, room, nodes, &mut list),
            Err(refused) => of_refusal(draft, room, *refused, &mut list),
        }
        list.sort();
        list.dedup();
        for feature in list {
            assert!(FEATURES.contains(&feature), "{feature} isn't listed");
            *self.counts.entry(feature).or_default() += 1;
        }
        self.texts += 1;
        self.read += u64::from(answer.is_ok());
    }

    pub fn add_all(&mut self, other: &Shown) {
        for (feature, count) in &other.counts {
            *self.counts.entry(feature).or_default() += count;
        }
        self.texts += other.texts;
        self.read += other.read;
    }

    fn count(&self, feature: &str) -> u64 {
        self.counts.get(feature).copied().unwrap_or(0)
    }

    /// What no text showed.
    pub fn missing(&self) -> Vec<&'static str> {
        let missing = |feature: &&str| self.count(feature) == 0;
        FEATURES.into_iter().filter(missing).collect()
    }

    /// A table of the counts.
    pub fn report(&self) -> String {
        let mut out = format!("{} texts, {} read\n", self.texts, self.read);
        for feature in FEATURES {
            let count = self.count(feature);
            writeln!(out, "{feature:<44}{count:>12}").expect("a string takes all");
        }
        out
    }
}

type List = Vec<&'static str>;

/// What begins at a backslash.
struct Piece<'a> {
    name: &'a str,
    plus: bool,
    star: bool,
    /// Behind the name.
    behind: &'a str,
    entry: Option<Entry<'a>>,
}

fn piece<'a>(draft: &'a Draft, entries: &[Entry<'a>], rest: &'a str) -> Piece<'a> {
    let name = marker_name(rest);
    let plus = rest.starts_with("\\+");
    let behind = &rest[1 + usize::from(plus) + name.len()..];
    let marker = lookup(&draft.table, name);
    Piece {
        name,
        plus,
        star: behind.starts_with('*'),
        behind,
        entry: marker.map(|marker| entries[marker as usize]),
    }
}

fn category(entry: &Entry<'_>) -> &'static str {
    CATEGORIES[entry.category]
}

/// Category and name of what is open at the end of a text without a fault, the innermost last.
fn open_at_end<'a>(
    draft: &'a Draft,
    entries: &[Entry<'a>],
    text: &'a str,
) -> Vec<(&'static str, &'a str)> {
    let mut open = Vec::new();
    for (place, _) in text.match_indices('\\') {
        let Piece {
            name, star, entry, ..
        } = piece(draft, entries, &text[place..]);
        match entry.as_ref().map(category) {
            Some(_) if star => _ = open.pop(),
            Some(opens @ ("character" | "note")) => open.push((opens, name)),
            _ => {}
        }
    }
    open
}

fn of_refusal(draft: &Draft, room: usize, (number, place): Refused, list: &mut List) {
    match number {
        1 => list.push("1: the table"),
        2 => list.push("2: too long"),
        3 => list.push("3: no UTF-8"),
        18 => list.push(match place - room as u64 {
            _ if room == 0 => "18: no room",
            1 => "18: one node short",
            _ => "18: more nodes short",
        }),
        _ => {
            let text = std::str::from_utf8(&draft.text).expect("number 3 comes before");
            let entries = entries(&draft.table).expect("number 1 comes before");
            let (before, rest) = text.split_at(place as usize);
            let open = open_at_end(draft, &entries, before);
            let piece = piece(draft, &entries, if rest.is_empty() { "\\" } else { rest });
            match number {
                16 => by_16(before, &piece, &open, list),
                _ if rest.is_empty() => list.push(match open.iter().any(|&(of, _)| of == "note") {
                    true => "17: the end with a note open",
                    false => "17: the end with a character open",
                }),
                _ => by_17(&piece, &open, list),
            }
        }
    }
}

fn by_16(before: &str, piece: &Piece<'_>, open: &[(&str, &str)], list: &mut List) {
    let starred = |with: &'static str, without| if piece.star { with } else { without };
    list.push(match (piece.name, piece.behind.chars().next()) {
        ("", None) => "16: a backslash at the end",
        ("", Some('|')) => "16: a backslash before a bar",
        ("", Some('\\')) => "16: a backslash before a backslash",
        ("", Some('*')) => "16: a plus and a star",
        ("", Some(_)) => "16: a backslash before a blank",
        _ if piece.name.starts_with('+') => "16: two pluses",
        _ if piece.entry.is_none() => starred("16: an unknown close", "16: an unknown marker"),
        _ => starred(
            "16: a close of category other",
            "16: a marker of category other",
        ),
    });
    if !open.is_empty() {
        list.push("16: with something open");
        let run = before.rfind('\\').map_or("", |at| &before[at..]);
        if run.contains('|') {
            list.push("16: in the middle of an attribute");
        }
    }
}

fn by_17(piece: &Piece<'_>, open: &[(&str, &str)], list: &mut List) {
    let Some(entry) = piece.entry else {
        list.push(match open {
            [] => "17: a lone star, nothing open",
            _ => "17: a lone star, something open",
        });
        return;
    };
    let category = category(&entry);
    let innermost = open.last().map(|&(_, name)| name);
    let without_level = |name: &str| name.trim_end_matches(|c: char| c.is_ascii_digit()).len();
    list.push(match (piece.star, category) {
        (true, "identification") => "17: a close of category identification",
        (true, "chapter") => "17: a close of category chapter",
        (true, "verse") => "17: a close of category verse",
        (true, "paragraph") => "17: a close of category paragraph",
        (true, "milestone") => "17: a close of category milestone",
        (true, _) => match innermost {
            None => "17: a close, nothing open",
            Some(name)
                if name[..without_level(name)] == piece.name[..without_level(piece.name)] =>
            {
                "17: a close, another level innermost"
            }
            Some(_) if open.iter().any(|&(_, name)| name == piece.name) => {
                "17: a close of what is open further out"
            }
            Some(_) => "17: a close, another name innermost",
        },
        (_, "identification") => "17: identification with something open",
        (_, "paragraph") => "17: paragraph with something open",
        (_, "chapter") if piece.name != entry.name => "17: glued chapter with something open",
        (_, "chapter") => "17: chapter with something open",
        _ => by_milestone(piece.behind),
    });
    if !piece.star && category == "milestone" && !open.is_empty() {
        list.push("17: a milestone with something open");
    }
    let ends = matches!(category, "identification" | "paragraph" | "chapter");
    if !piece.star && ends && open.iter().any(|&(of, _)| of == "note") {
        list.push("17: a block marker with a note open");
    }
}

fn by_milestone(behind: &str) -> &'static str {
    let rest = behind.trim_start_matches(is_blank);
    let backslash = rest.find('\\');
    match (rest.chars().next(), backslash) {
        (None, _) if behind.is_empty() => "17: a milestone at the end",
        (None, _) => "17: a milestone, blanks to the end",
        (Some('|'), None) => "17: a milestone, attributes to the end",
        (Some('|'), Some(_)) => "17: a milestone, a marker behind attributes",
        (Some('\\'), _) if rest.starts_with("\\*") => "17: a milestone, blanks and a star",
        (Some('\\'), _) => "17: a milestone, a marker directly behind",
        _ => "17: a milestone, other text",
    }
}

/// What a node stands in: a category, or the top.
fn around(open: &[Open<'_>]) -> &'static str {
    open.last().map_or("top", |open| open.category)
}

struct Open<'a> {
    node: usize,
    category: &'static str,
    name: &'a str,
    plus: bool,
}

fn of_nodes(draft: &Draft, room: usize, nodes: &[Node], list: &mut List) {
    let text = std::str::from_utf8(&draft.text).expect("a text that is read is UTF-8");
    let entries = entries(&draft.table).expect("the table of a text that is read has its layout");
    let mut note = |shown: bool, feature| {
        if shown {
            list.push(feature);
        }
    };
    note(room == nodes.len(), "exactly enough room");
    note(text.is_empty(), "the empty text");
    note(entries.is_empty(), "a table without markers");
    note(
        nodes.len() == text.len() + 1 && !text.is_empty(),
        "a node for each byte, and more",
    );
    let mut open: Vec<Open<'_>> = Vec::new();
    for (place, node) in nodes.iter().enumerate().skip(1) {
        let rest = &text[node.start as usize..];
        let part = &rest[..node.len as usize];
        let before = nodes[place - 1];
        match node.kind {
            kind::TEXT => {
                of_text(part, around(&open), list);
                let after_close = before.kind == kind::MARKER_CLOSE;
                let in_block = matches!(around(&open), "paragraph" | "identification");
                if after_close && in_block {
                    list.push("Text behind the last close of a block");
                }
            }
            kind::ATTRIBUTE => of_attribute(part, before.kind, around(&open), list),
            kind::MARKER_OPEN => {
                let piece = piece(draft, &entries, rest);
                of_open(&piece, &entries, &open, list);
                open.push(Open {
                    node: place,
                    category: category(&piece.entry.expect("an open is known")),
                    name: piece.name,
                    plus: piece.plus,
                });
                match open.len() {
                    DEEPEST => list.push("64 deep"),
                    deep if deep > DEEPEST => list.push("over 64 deep"),
                    _ => {}
                }
            }
            kind::MARKER_CLOSE => {
                let open = open.pop().expect("a close has its open");
                let is_empty = open.node + 1 == place;
                of_close(&piece(draft, &entries, rest), &open, is_empty, list);
            }
            kind::BLOCK_END => {
                let open = open.pop().expect("a close has its open");
                let next = piece(draft, &entries, if rest.is_empty() { "\\" } else { rest });
                list.push(match next.entry.as_ref().map(category) {
                    None => "a block ended by the end",
                    Some("chapter") => "a block ended by a chapter",
                    Some("identification") => "a block ended by identification",
                    Some(_) => "a block ended by a block",
                });
                if open.node + 1 == place {
                    list.push("an empty block");
                }
            }
            _ => {
                let piece = piece(draft, &entries, part);
                if node.kind == kind::CHAPTER && before.kind != kind::BLOCK_END {
                    list.push("a chapter without a block before it");
                }
                if node.kind == kind::VERSE {
                    list.push(match around(&open) {
                        "top" => "a verse at the top",
                        "character" => "a verse in a character",
                        "note" => "a verse in a note",
                        _ => "a verse in a block",
                    });
                }
                of_number(&piece, &rest[part.len()..], list);
            }
        }
    }
}

fn of_text(part: &str, around: &str, list: &mut List) {
    let bar = part.contains('|');
    list.push(match around {
        "top" if bar => "Text with a bar at the top",
        "top" => "Text at the top",
        "character" => "Text in a character",
        "note" => "Text in a note",
        "milestone" => "Text in a milestone",
        _ if bar => "Text with a bar in a block",
        _ => "Text in a block",
    });
    if part.chars().all(is_blank) {
        list.push("blank Text");
    }
    if !part.is_ascii() {
        list.push("bytes over 127 in a run");
    }
}

fn of_attribute(part: &str, before: u8, around: &str, list: &mut List) {
    list.push(match around {
        "character" => "Attribute in a character",
        "note" => "Attribute in a note",
        _ => "Attribute in a milestone",
    });
    match before {
        kind::TEXT => list.push("Text and Attribute of one run"),
        kind::MARKER_OPEN => list.push("Attribute directly behind a name"),
        kind::MARKER_CLOSE => list.push("Attribute behind a close"),
        _ => {}
    }
    if part == "|" {
        list.push("Attribute of a bar alone");
    }
    if part[1..].contains('|') {
        list.push("Attribute with two bars");
    }
}

fn of_open(piece: &Piece<'_>, entries: &[Entry<'_>], open: &[Open<'_>], list: &mut List) {
    let entry = piece.entry.expect("an open is known");
    let equal = entries.iter().filter(|other| other.name == entry.name);
    if equal.count() > 1 {
        list.push("a name that stands twice");
    }
    let level = piece.name.ends_with(|c: char| c.is_ascii_digit());
    if level && piece.name == entry.name {
        list.push("an exact name before its level");
    }
    let inside = around(open);
    match (category(&entry), inside) {
        ("character", "top") => list.push("a character at the top"),
        ("character", "character") => list.push("a character in a character"),
        ("character", "note") => list.push("a character in a note"),
        ("note", "character") => list.push("a note in a character"),
        ("milestone", "top") => list.push("a milestone at the top"),
        ("milestone", "character" | "note") => list.push("a milestone in a character or note"),
        ("milestone", _) => list.push("a milestone in a block"),
        ("paragraph" | "identification", _) => {
            if level {
                list.push("a block with a level");
            }
            if piece.plus {
                list.push("a block with a plus");
            }
        }
        _ => {}
    }
    if inside == "character" && open.last().is_some_and(|open| open.name == piece.name) {
        list.push("a character in itself");
    }
}

fn of_close(piece: &Piece<'_>, open: &Open<'_>, is_empty: bool, list: &mut List) {
    if open.category == "milestone" {
        return;
    }
    match (open.plus, piece.plus) {
        (true, true) => list.push("a plus on both"),
        (true, false) => list.push("a plus on the open"),
        (false, true) => list.push("a plus on the close"),
        _ => {}
    }
    if piece.entry.is_some_and(|entry| entry.name != piece.name) {
        list.push("a level on both");
    }
    if is_empty && open.category == "character" {
        list.push("an empty character");
    }
}

fn of_number(piece: &Piece<'_>, behind: &str, list: &mut List) {
    let entry = piece.entry.expect("a number's marker is known");
    let too_large = |label: &str| {
        label.starts_with(|c: char| c.is_ascii_digit()) && parse_verse_part(label).is_none()
    };
    if piece.plus {
        list.push("a number with a plus");
    }
    let glued = &piece.name[entry.name.len()..];
    if !glued.is_empty() {
        list.push(match glued.ends_with(|c: char| c.is_ascii_digit()) {
            true => "glued by its level",
            false => "glued with a letter",
        });
        if too_large(glued) {
            list.push("glued and too large");
        }
        return;
    }
    let word = piece.behind.trim_start_matches(is_blank);
    let blanks = &piece.behind[..piece.behind.len() - word.len()];
    if word.is_empty() {
        list.push(match blanks {
            "" => "no blank and no word",
            _ => "blanks and no word",
        });
        return;
    }
    for (shown, feature) in [
        (word.contains('|'), "a word with a bar"),
        (word.contains('*'), "a word with a star"),
        (behind.starts_with('\\'), "a word up to a backslash"),
        (blanks.contains('\n'), "a word over a line's end"),
        (!blanks.is_ascii(), "a word behind a blank of several bytes"),
        (too_large(word), "a word that is too large"),
        (
            !word.starts_with(|c: char| c.is_ascii_digit()),
            "a word without a leading number",
        ),
    ] {
        if shown {
            list.push(feature);
        }
    }
}

#[cfg(test)]
mod tests {
    use super::*;
    use crate::samples::entry;

    const ENTRIES: [Entry<'static>; 4] = [
        entry("p", 3, 2),
        entry("v", 2, 0),
        entry("w", 4, 0),
        entry("m", 6, 0),
    ];

    fn shown(text: &str, room: usize) -> Vec<&'static str> {
        let draft = Draft::new(&ENTRIES, text);
        let mut shown = Shown::default();
        shown.add(&draft, room, &draft.read(room));
        shown.counts.into_keys().collect()
    }

    #[test]
    fn constructs_are_told_by_what_they_are() {
        assert_eq!(
            shown("\\p\\v1a\\+w|\\w*", 7),
            [
                "Attribute directly behind a name",
                "Attribute in a character",
                "Attribute of a bar alone",
                "a block ended by the end",
                "a plus on the open",
                "a verse in a block",
                "exactly enough room",
                "glued with a letter",
            ]
        );
        assert_eq!(
            shown("\\v 4294967296|\\v", 9),
            [
                "a verse at the top",
                "a word that is too large",
                "a word up to a backslash",
                "a word with a bar",
                "no blank and no word",
            ]
        );
    }

    #[test]
    fn refusals_are_told_by_their_causes() {
        for (text, room, expected) in [
            ("\\p\\p*", 9, "17: a close of category paragraph"),
            ("\\w1\\w*", 9, "17: a close, another level innermost"),
            ("\\w\\p", 9, "17: paragraph with something open"),
            ("\\w", 9, "17: the end with a character open"),
            ("\\m \\*", 9, "17: a milestone, blanks and a star"),
            ("\\*", 9, "17: a lone star, nothing open"),
            ("\\+*", 9, "16: a plus and a star"),
            ("\\zz*", 9, "16: an unknown close"),
            ("\\p", 2, "18: one node short"),
            ("\\p", 0, "18: no room"),
        ] {
            assert_eq!(shown(text, room), [expected], "{text}");
        }
    }

    #[test]
    fn what_no_text_shows_is_missing() {
        let mut shown = Shown::default();
        assert_eq!(shown.missing(), FEATURES);
        let draft = Draft::new(&ENTRIES, "");
        shown.add(&draft, 1, &draft.read(1));
        assert_eq!(shown.missing().len(), FEATURES.len() - 2);
        let lines = shown.report();
        assert!(lines.starts_with("1 texts, 1 read\n"));
        assert_eq!(lines.lines().count(), 1 + FEATURES.len());
        let mut both = shown.clone();
        both.add_all(&shown);
        assert_eq!((both.texts, both.read), (2, 2));
        assert_eq!(both.count("the empty text"), 2);
        assert_eq!(both.missing(), shown.missing());
    }
}
