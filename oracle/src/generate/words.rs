//! Words and blanks of many scripts.

use crate::rng::Rng;

/// Every blank of document 01's list.
pub const BLANKS: [char; 25] = [
    '\u{9}', '\u{A}', '\u{B}', '\u{C}', '\u{D}', '\u{20}', '\u{85}', '\u{A0}', '\u{1680}',
    '\u{2000}', '\u{2001}', '\u{2002}', '\u{2003}', '\u{2004}', '\u{2005}', '\u{2006}', '\u{2007}',
    '\u{2008}', '\u{2009}', '\u{200A}', '\u{2028}', '\u{2029}', '\u{202F}', '\u{205F}', '\u{3000}',
];

/// Neighbours of the blanks, and characters that other lists call blank.
pub const NEAR_MISSES: [char; 26] = [
    '\u{8}', '\u{E}', '\u{1C}', '\u{1F}', '\u{21}', '\u{7F}', '\u{84}', '\u{86}', '\u{9F}',
    '\u{A1}', '\u{167F}', '\u{1681}', '\u{180E}', '\u{1FFF}', '\u{200B}', '\u{200D}', '\u{2027}',
    '\u{202A}', '\u{202E}', '\u{2030}', '\u{205E}', '\u{2060}', '\u{2FFF}', '\u{3001}', '\u{FEFF}',
    '\u{10A0}',
];

const WORDS: [&str; 34] = [
    "In",
    "the",
    "beginning",
    "God",
    "word",
    "a",
    "x",
    "1",
    "23",
    "GEN",
    "Ἐν",
    "ἀρχῇ",
    "λόγος",
    "كلمة",
    "ٱللَّه",
    "起初",
    "神",
    "創造",
    "말씀",
    "😀",
    "👩\u{200D}👧",
    "é",
    "ñandú",
    "…",
    "“said",
    "~",
    "//",
    "-",
    "=",
    "\"",
    "\\\"",
    "*",
    "|",
    "𐀀",
];

/// Something between two words: mostly a space.
pub fn separator(rng: &mut Rng, out: &mut String) {
    match rng.below(100) {
        0..80 => out.push(' '),
        80..88 => out.push('\n'),
        88..96 => out.push(rng.pick(&BLANKS)),
        96 => out.push(rng.pick(&NEAR_MISSES)),
        _ => {
            out.push(rng.pick(&BLANKS));
            out.push(rng.pick(&BLANKS));
        }
    }
}

/// A run of text as it follows a marker.
pub fn text(rng: &mut Rng, out: &mut String) {
    for _ in 0..rng.from_to(1, 4) {
        separator(rng, out);
        out.push_str(rng.pick(&WORDS));
    }
    if rng.percent(40) {
        out.push('\n');
    }
}

/// Blanks only, or none at all; now and then with a character that only looks blank.
pub fn blanks(rng: &mut Rng, out: &mut String) {
    for _ in 0..rng.below(4) {
        match rng.below(100) {
            0..50 => out.push(' '),
            50..65 => out.push('\n'),
            65..96 => out.push(rng.pick(&BLANKS)),
            _ => out.push(rng.pick(&NEAR_MISSES)),
        }
    }
}
