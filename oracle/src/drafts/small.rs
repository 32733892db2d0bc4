//! Small texts, all of them.

use super::Draft;
use crate::document::{CATEGORIES, Entry, table_text};
use crate::samples::entry;

/// What a text is made of, and the table it stands under. No two lists of symbols make the same text.
struct Alphabet {
    symbols: &'static [&'static str],
    entries: Vec<Entry<'static>>,
}

/// Each sign that the reader knows, alone: all that can be said of one marker.
const SIGNS: [&str; 7] = ["\\", "a", "*", "|", "+", " ", "1"];

fn alphabets() -> Vec<Alphabet> {
    let one_marker = (0..CATEGORIES.len()).map(|category| Alphabet {
        symbols: &SIGNS,
        entries: vec![entry("a", category, 0)],
    });
    let mut list: Vec<Alphabet> = one_marker.collect();
    list.extend([
        // Blocks, chapters and opens in each other.
        Alphabet {
            symbols: &["\\p", "\\id", "\\c", "\\a", "\\a*", "\\n", "\\n*", "|"],
            entries: vec![
                entry("id", 0, 1),
                entry("c", 1, 0),
                entry("p", 3, 2),
                entry("a", 4, 0),
                entry("n", 5, 1),
            ],
        },
        // Milestones, in an open and outside.
        Alphabet {
            symbols: &[
                "\\m", "\\*", "|", " ", "\u{2003}", "x", "\\a", "\\a*", "\\p",
            ],
            entries: vec![entry("p", 3, 2), entry("a", 4, 0), entry("m", 6, 0)],
        },
        // Numbers with blanks and without; a level is looked for before a number behind `c`.
        Alphabet {
            symbols: &["\\v", "\\c", "1", "b", " ", "\n", "\u{3000}", "|"],
            entries: vec![entry("v", 2, 0), entry("c", 1, 0), entry("c1b", 2, 0)],
        },
        // Numbers that `v` and `c` don't stand for, and numbers at the end of 32 bits.
        Alphabet {
            symbols: &["\\v1", "\\c", "\\x", "4294967295", "6", "-", " ", "*"],
            entries: vec![
                entry("v", 1, 0),
                entry("v1", 2, 0),
                entry("c", 4, 0),
                entry("x", 2, 0),
            ],
        },
        // Levels, and names that stand twice.
        Alphabet {
            symbols: &["\\q", "\\z", "1", "2", "-", "*", "+", " "],
            entries: vec![
                entry("q", 4, 0),
                entry("q1", 5, 0),
                entry("q", 7, 0),
                entry("q2", 3, 0),
                entry("z-1", 4, 0),
                entry("z", 7, 0),
            ],
        },
        // No marker at all.
        Alphabet {
            symbols: &["\\", "*", "|", "+", "a", " ", "é"],
            entries: Vec::new(),
        },
    ]);
    list
}

/// Every list of up to `most` symbols, the shorter ones first.
fn texts(symbols: &[&str], most: usize) -> impl Iterator<Item = String> {
    (0..=most as u32).flat_map(move |len| {
        (0..symbols.len().pow(len)).map(move |number| {
            let digit = |place| number / symbols.len().pow(place) % symbols.len();
            (0..len).map(|place| symbols[digit(place)]).collect()
        })
    })
}

/// Every text of up to `most` symbols, for several lists of symbols with a table for each.
pub fn every_draft(most: usize) -> impl Iterator<Item = Draft> {
    alphabets().into_iter().flat_map(move |alphabet| {
        let table = table_text(&alphabet.entries);
        texts(alphabet.symbols, most).map(move |text| Draft {
            table: table.clone(),
            text: text.into_bytes(),
        })
    })
}

#[cfg(test)]
mod tests {
    use super::*;
    use std::collections::HashSet;

    #[test]
    fn texts_are_all_there_and_differ() {
        let texts: Vec<String> = texts(&["a", "b"], 2).collect();
        assert_eq!(texts, ["", "a", "b", "aa", "ba", "ab", "bb"]);
        for alphabet in alphabets() {
            let count = alphabet.symbols.len();
            let all: HashSet<String> = super::texts(alphabet.symbols, 3).collect();
            assert_eq!(all.len(), 1 + count + count.pow(2) + count.pow(3));
        }
        let drafts: HashSet<Draft> = every_draft(3).collect();
        assert_eq!(drafts.len(), 9 * 400 + 4 * 585 + 820);
    }
}
