//! Document 01's module 10 with number 12, and document 02's texts of code 35, written from these documents for reading: the text
//! of a finding, or none. And what follows for the texts of a whole list.

use crate::document::{Document, Entry, Node, entries, kind};
use crate::forms::CONSTANT;
use crate::refusals::{is_blank, marker_name};

/// Of a finding's words, those that its text depends on.
#[derive(Clone, Copy, Debug, Default, PartialEq, Eq)]
pub struct Request {
    pub code: u64,
    pub form: u64,
    pub node: u64,
    pub first: u64,
    pub second: u64,
}

impl From<&[u64; 8]> for Request {
    fn from(&[_, code, _, _, node, form, first, second]: &[u64; 8]) -> Request {
        Request {
            code,
            form,
            node,
            first,
            second,
        }
    }
}

/// A request for each record of a list; a rest of words is no record.
pub fn requests(list: &[u64]) -> impl Iterator<Item = Request> {
    list.as_chunks().0.iter().map(Request::from)
}

/// An accepted document, for its texts.
pub struct Reader<'a> {
    document: &'a Document,
    source: &'a str,
    entries: Vec<Entry<'a>>,
}

impl<'a> Reader<'a> {
    pub fn new(document: &'a Document) -> Reader<'a> {
        Reader {
            document,
            source: std::str::from_utf8(&document.source).expect("an accepted source is UTF-8"),
            entries: entries(&document.table).expect("an accepted table has its layout"),
        }
    }

    /// The text, or `None` where number 12 turns it back.
    pub fn text(&self, request: Request) -> Option<String> {
        let Request { code, form, .. } = request;
        self.node(request.node)?;
        let known = |&&(its_code, its_form, _): &&(u32, u64, &str)| {
            (u64::from(its_code), its_form) == (code, form)
        };
        match CONSTANT.iter().find(known) {
            Some((_, _, text)) => Some(text.to_string()),
            None => self.filled(request),
        }
    }

    /// A text that shows something of the document or of the finding.
    fn filled(&self, request: Request) -> Option<String> {
        let Request {
            code,
            form,
            node,
            first,
            second,
        } = request;
        Some(match (code, form) {
            (5, 0) => should_be_uppercase(self.book_code(node)?),
            (5, 1) => format!(
                "\"{}\" is not a valid USFM book code",
                self.book_code(node)?
            ),
            (9, 0) => format!("expected chapter {first} but found {second}"),
            (10, 0) => format!("chapter {first} appears more than once"),
            (11, 0) => {
                let (letter, label) = (letter(second)?, self.label(node)?);
                format!("expected verse {first}{letter} but found {label}")
            }
            (13, 0) => format!("\\{} is only valid inside a note", self.entry(node)?.name),
            (15, 0) => leading_zeros("chapter", self.label(node)?),
            (15, 1) => leading_zeros("verse", self.label(node)?),
            (16, 0) => no_matching(self.base(node)?, "s", "e"),
            (16, 1) => no_matching(self.base(node)?, "e", "s"),
            (23, 0) => missing_gloss(self.entry(node)?.name),
            (24, 0) => before_any_chapter(self.entry(node)?.name),
            (27, 0) => format!("expected table column {first} but found column {second}"),
            (32, 0) => no_default(self.name(first)?),
            (33, 0) => misplaced(self.name(node)?)?,
            (34, 0) => self.glued(node)?,
            (35, 0) => format!("verse label {} has no number", self.label(node)?),
            (35, 1) => format!("verse label {} is too large", self.label(node)?),
            _ => return None,
        })
    }

    fn node(&self, place: u64) -> Option<Node> {
        let on_tape = place < self.document.node_count() as u64;
        on_tape.then(|| self.document.node(place as usize))
    }

    /// The part of the source that a node spans. The root's span is never checked, so it has none.
    fn part(&self, place: u64) -> Option<&'a str> {
        let node = self.node(place).filter(|_| place > 0)?;
        Some(&self.source[node.start as usize..node.end() as usize])
    }

    fn name(&self, place: u64) -> Option<&'a str> {
        self.part(place).map(marker_name)
    }

    /// The table entry of a node, as the published `marker_info` gives it: by kind.
    fn entry(&self, place: u64) -> Option<Entry<'a>> {
        let node = self.node(place)?;
        let has_marker =
            node.is_close() || matches!(node.kind, kind::MARKER_OPEN | kind::CHAPTER | kind::VERSE);
        let entry = self.entries.get(node.marker as usize);
        entry.copied().filter(|_| has_marker)
    }

    /// What the name of a Chapter or Verse has beyond its table name.
    fn glued_label(&self, place: u64) -> Option<&'a str> {
        let node = self.node(place)?;
        let numbered = matches!(node.kind, kind::CHAPTER | kind::VERSE);
        let name = self.name(place).filter(|_| numbered)?;
        let label = name.get(self.entry(place)?.name.len()..)?;
        (!label.is_empty()).then_some(label)
    }

    /// The label of a Chapter or Verse, if it isn't empty.
    pub fn label(&self, place: u64) -> Option<&'a str> {
        let numbered = matches!(self.node(place)?.kind, kind::CHAPTER | kind::VERSE);
        let second_word = || words(self.part(place)?).nth(1);
        self.glued_label(place)
            .or_else(second_word)
            .filter(|_| numbered)
    }

    fn glued(&self, place: u64) -> Option<String> {
        let (name, label) = (self.name(place)?, self.glued_label(place)?);
        let base = &name[..name.len() - label.len()];
        Some(format!(
            "\\{name} needs a space before its number; read as \\{base} {label}"
        ))
    }

    fn base(&self, place: u64) -> Option<&'a str> {
        let name = self.name(place)?;
        name.strip_suffix("-s").or(name.strip_suffix("-e"))
    }

    /// The first word of the first Text child of a MarkerOpen, if that has one.
    fn book_code(&self, place: u64) -> Option<&'a str> {
        let open = self.node(place)?;
        if open.kind != kind::MARKER_OPEN {
            return None;
        }
        let mut child = place + 1;
        while child < u64::from(open.link) {
            let node = self.node(child)?;
            match node.kind {
                kind::TEXT => return words(self.part(child)?).next(),
                kind::MARKER_OPEN => child = u64::from(node.link) + 1,
                _ => child += 1,
            }
        }
        None
    }
}

fn words(text: &str) -> impl Iterator<Item = &str> {
    text.split(is_blank).filter(|word| !word.is_empty())
}

/// The letter of a verse position: a byte up to 127, or none.
fn letter(second: u64) -> Option<String> {
    match u8::try_from(second).ok()? {
        0 => Some(String::new()),
        byte if byte.is_ascii() => Some(char::from(byte).to_string()),
        _ => None,
    }
}

fn should_be_uppercase(code: &str) -> String {
    let upper = code.to_ascii_uppercase();
    format!("book code \"{code}\" should be uppercase: \"{upper}\"")
}

fn leading_zeros(unit: &str, label: &str) -> String {
    format!("{unit} number `{label}` has leading zeros")
}

fn no_matching(base: &str, this: &str, other: &str) -> String {
    format!("milestone \\{base}-{this} has no matching \\{base}-{other}")
}

fn missing_gloss(name: &str) -> String {
    format!("\\{name} is missing its required \"gloss\" attribute")
}

fn before_any_chapter(name: &str) -> String {
    format!("body paragraph \\{name} appears before any \\c (chapter)")
}

fn no_default(owner: &str) -> String {
    format!("\\{owner} has no default attribute; the value after `|` is invalid")
}

fn misplaced(name: &str) -> Option<String> {
    let (anchor, unit) = match name {
        "ca" | "cp" => ("c", "chapter"),
        "va" | "vp" => ("v", "verse"),
        _ => return None,
    };
    Some(format!(
        "\\{name} must directly follow its \\{anchor} (at most once per {unit}); it is kept as character text"
    ))
}

/// The texts of a list, written one behind another over a list of bytes: up to the first that has none or no room.
#[derive(Clone, Debug, Default, PartialEq, Eq)]
pub struct WrittenTexts {
    pub bytes: Vec<u8>,
    /// Where each text ends.
    pub ends: Vec<u64>,
    /// What turns the next text back: number and place.
    pub stopped: Option<(u64, u64)>,
}

pub fn written_texts<T: AsRef<str>>(
    texts: impl Iterator<Item = Option<T>>,
    room: usize,
) -> WrittenTexts {
    let mut written = WrittenTexts::default();
    for text in texts {
        let Some(text) = text else {
            written.stopped = Some((12, 0));
            break;
        };
        let text = text.as_ref().as_bytes();
        if written.bytes.len() + text.len() > room {
            written.stopped = Some((13, text.len() as u64));
            break;
        }
        written.bytes.extend_from_slice(text);
        written.ends.push(written.bytes.len() as u64);
    }
    written
}

#[cfg(test)]
mod tests;
