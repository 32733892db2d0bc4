//! Attribute lists, well formed and malformed in every way.

use super::words;
use crate::rng::Rng;

const KEYS: [&str; 10] = [
    "lemma",
    "strong",
    "gloss",
    "who",
    "sid",
    "x-occurrence",
    "src",
    "κλειδί",
    "k",
    "",
];

const VALUES: [&str; 14] = [
    "grace",
    "H1234",
    "a b",
    "λόγος",
    "كلمة",
    "神",
    "😀",
    "1",
    "a=b",
    "x\\\"y",
    "\\\"",
    "\\",
    "a|b",
    "\u{3000}",
];

/// Whole lists that a random one seldom is.
const SPECIAL_LISTS: [&str; 24] = [
    "",
    "|",
    "| ",
    "|\u{2003}\u{A0}",
    "|\u{200B}",
    "||",
    "|=",
    "|==",
    "|=\"x\"",
    "|=\"\"",
    "|lemma",
    "|grace mercy",
    "|lemma=\"\"",
    "|lemma=",
    "|lemma= \"x\"",
    "|lemma =\"x\"",
    "|lemma=\"x",
    "|lemma=\"x\\\"",
    "|lemma=\"x\\\\\"",
    "|lemma=\"",
    "|lemma=x strong",
    "|lemma=x strong=\"\" gloss=y",
    "|lemma=\"a\"strong=\"b\"",
    "|lemma=\"a\" strong",
];

/// The text of one Attribute node.
pub fn list(rng: &mut Rng, out: &mut String) {
    if rng.percent(35) {
        out.push_str(rng.pick(&SPECIAL_LISTS));
        return;
    }
    if rng.percent(95) {
        out.push('|');
    }
    for place in 0..rng.weighted(&[1, 10, 5, 3, 1]) {
        if place > 0 && rng.percent(90) {
            words::separator(rng, out);
        }
        piece(rng, out);
    }
    if rng.percent(15) {
        words::blanks(rng, out);
    }
}

fn piece(rng: &mut Rng, out: &mut String) {
    let key = rng.pick(&KEYS);
    let value = rng.pick(&VALUES);
    match rng.weighted(&[40, 8, 8, 8, 6, 4]) {
        0 => quoted(out, key, value, true),
        1 => quoted(out, key, "", true),
        2 => quoted(out, key, value, false),
        3 => {
            out.push_str(key);
            out.push('=');
            out.push_str(value);
        }
        4 => out.push_str(key),
        _ => out.push_str(value),
    }
}

fn quoted(out: &mut String, key: &str, value: &str, closed: bool) {
    out.push_str(key);
    out.push_str("=\"");
    out.push_str(value);
    if closed {
        out.push('"');
    }
}
