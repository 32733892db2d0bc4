//! Documents with a verse of every short label.

use crate::document::{Document, kind};
use crate::samples::{Builder, entry};

/// What labels are made of: digits, the largest number that is read and the smallest that isn't, and what isn't read.
const SYMBOLS: [&str; 9] = [
    "0",
    "1",
    "2",
    "4294967295",
    "4294967296",
    "-",
    "+",
    "a",
    "é",
];

/// Calls `visit` with a verse of every label of up to `most` symbols, behind a blank and glued to its marker, between two verses
/// of one digit.
pub fn every_label(most: usize, mut visit: impl FnMut(&Document)) {
    for len in 0..=most {
        for row in 0..SYMBOLS.len().pow(len as u32) {
            let mut label = String::new();
            let mut rest = row;
            for _ in 0..len {
                label.push_str(SYMBOLS[rest % SYMBOLS.len()]);
                rest /= SYMBOLS.len();
            }
            for before in [" ", ""] {
                visit(&with_verse(&format!("\\v{before}{label}")));
            }
        }
    }
}

fn with_verse(text: &str) -> Document {
    let mut builder = Builder::default();
    builder.open(0, "\\id").text(" GEN").end();
    builder.leaf(kind::CHAPTER, 1, "\\c 1", 1).open(3, "\\p");
    for text in ["\\v 1", text, "\\v 2"] {
        builder.leaf(kind::VERSE, 2, text, 0);
    }
    builder.under(&[
        entry("id", 0, 1),
        entry("c", 1, 0),
        entry("v", 2, 0),
        entry("p", 3, 2),
    ])
}

#[cfg(test)]
mod tests {
    use super::*;
    use crate::refusals::refusal;
    use crate::unreadable::unreadable;

    #[test]
    fn labels_are_read_and_arent() {
        let mut forms = [0; 3];
        every_label(2, |document| {
            assert_eq!(refusal(document, usize::MAX, usize::MAX), None);
            let form = match unreadable(document)[..] {
                [] => 2,
                [one] => one.form as usize,
                _ => panic!("the other verses are read"),
            };
            forms[form] += 1;
        });
        // Of the nine symbols four are no digit.
        let no_digits = 2 * (4 + 4 * 9);
        assert_eq!(forms[0], no_digits);
        assert_eq!(forms.iter().sum::<usize>(), 2 * (1 + 9 + 81));
        assert!(forms[1] > 2 * 9, "{forms:?}");
    }
}
