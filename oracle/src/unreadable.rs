//! Document 02's verse numbers nobody can read, plainly: the part reading with its three answers, the Verses that have a finding
//! of code 35, where it stands among the published findings, and the whole list that is owed.

use crate::document::{Document, Node};
use crate::parts::Position;
use crate::published::{Found, Validated, try_validate};
use crate::refusals::{is_blank, visited_verses};
use crate::texts::{Reader, Request};

/// The code UnreadableVerseNumber.
pub const CODE: u32 = 35;
pub const NAME: &str = "UnreadableVerseNumber";

/// "Form is 0 for no digits and 1 for too large."
const NO_DIGITS: u64 = 0;
const TOO_LARGE: u64 = 1;

const WARNING: u32 = 1;
/// The code MissingVerseNumber.
const MISSING: u32 = 19;

/// "The part reading shall answer three ways: read, no digits, too large."
#[derive(Clone, Copy, Debug, PartialEq, Eq)]
pub enum Part {
    Read(Position),
    NoDigits,
    TooLarge,
}

/// The part that a text begins with.
pub fn part(text: &str) -> Part {
    // "skip blanks, digits, then one ASCII lower-case letter if next"
    let text = text.trim_start_matches(is_blank);
    let rest = text.trim_start_matches(|c: char| c.is_ascii_digit());
    let digits = &text[..text.len() - rest.len()];
    let letter = rest.bytes().next().filter(u8::is_ascii_lowercase);

    // "without a digit, or with a value over 4,294,967,295, it is not read"
    match value(digits) {
        _ if digits.is_empty() => Part::NoDigits,
        None => Part::TooLarge,
        Some(number) => Part::Read((number, letter.unwrap_or(0))),
    }
}

/// What digits are worth, if it is at most 4,294,967,295. Zeros before a number add nothing.
fn value(digits: &str) -> Option<u32> {
    let worth =
        |so_far: u32, digit: u8| so_far.checked_mul(10)?.checked_add(u32::from(digit - b'0'));
    digits.bytes().try_fold(0, worth)
}

/// "The end is read after the first `-`, else the start serves."
pub fn range_end(label: &str) -> Part {
    match label.split_once('-') {
        Some((_, end)) => part(end),
        None => part(label),
    }
}

/// A Verse that has a finding of code 35.
#[derive(Clone, Copy, Debug, PartialEq, Eq)]
pub struct Unreadable {
    pub node: usize,
    pub form: u64,
}

impl Unreadable {
    /// All eight words of its finding.
    pub fn words(&self, document: &Document) -> [u64; 8] {
        let Node { start, len, .. } = document.node(self.node);
        let [severity, code, start, len] = [WARNING, CODE, start, len].map(u64::from);
        [
            severity,
            code,
            start,
            len,
            self.node as u64,
            self.form,
            0,
            0,
        ]
    }
}

/// "For a visited Verse with a nonempty label whose start isn't read", in the order of visits. The document is accepted.
pub fn unreadable(document: &Document) -> Vec<Unreadable> {
    let reader = Reader::new(document);
    let of_node = |node: usize| {
        let form = match part(reader.label(node as u64)?) {
            Part::Read(_) => return None,
            Part::NoDigits => NO_DIGITS,
            Part::TooLarge => TOO_LARGE,
        };
        Some(Unreadable { node, form })
    };
    let verses = visited_verses(document).into_iter();
    verses.filter_map(of_node).collect()
}

/// How many published findings stand before the finding of a visited Verse whose start isn't read: "where InvalidVerseSequence
/// would stand".
///
/// The published code gives MissingVerseNumber or InvalidVerseSequence there. So the place is that of MissingVerseNumber in the
/// same document with a Verse that has no label, in a span behind the source, which no other node has. Nothing before the place
/// differs, since a number that is missing leaves the expected verse as one that isn't read does.
pub fn place(document: &Document, verse: usize) -> Result<usize, String> {
    let mut without_label = document.clone();
    let end = document.source.len() as u32;
    without_label.source.push(b'\n');
    let node = Node {
        // No table has a marker of this number, so that nothing is glued to a table name.
        marker: u16::MAX,
        start: end,
        len: 1,
        ..document.node(verse)
    };
    without_label.set_node(verse, node);
    let Validated::Findings(list) = try_validate(&without_label)? else {
        return Err("without a label a sum leaves 32 bits".to_string());
    };
    let is_missing = |f: &Found| (f.code, f.start, f.len) == (MISSING, end, node.len);
    let place = list.iter().position(is_missing);
    place.ok_or_else(|| format!("the published code doesn't visit the Verse at node {verse}"))
}

/// The whole list of an accepted document: the published findings, and those of code 35 in their places.
pub fn owed(document: &Document) -> Result<Validated, String> {
    let Validated::Findings(mut list) = try_validate(document)? else {
        return Ok(Validated::Overflowed);
    };
    let reader = Reader::new(document);
    for (before, verse) in unreadable(document).into_iter().enumerate() {
        let words = verse.words(document);
        let text = reader.text(Request::from(&words));
        let [_, _, start, len, ..] = words.map(|word| word as u32);
        let found = Found {
            severity: WARNING,
            code: CODE,
            start,
            len,
            message: text.ok_or("a finding of code 35 has no text")?,
        };
        // The findings of code 35 before it are in the list already.
        list.insert(place(document, verse.node)? + before, found);
    }
    Ok(Validated::Findings(list))
}

/// The same of an example, none of which has such a sum.
pub fn owed_findings(document: &Document) -> Vec<Found> {
    match owed(document) {
        Ok(Validated::Findings(list)) => list,
        Ok(Validated::Overflowed) => panic!("a sum leaves 32 bits"),
        Err(why) => panic!("{why}"),
    }
}

#[cfg(test)]
mod tests;
