//! Marker tables: the markers of USFM with their categories and roles, and what can be made of them.

use crate::document::{CATEGORIES, Entry, ROLES};
use crate::refusals::MOST_MARKERS;
use crate::rng::Rng;

const fn entry(name: &'static str, category: usize, role: usize) -> Entry<'static> {
    Entry {
        name,
        category,
        role,
    }
}

const IDENTIFICATION: usize = 0;
const CHAPTER: usize = 1;
const VERSE: usize = 2;
const PARAGRAPH: usize = 3;
const CHARACTER: usize = 4;
const NOTE: usize = 5;
pub const MILESTONE: usize = 6;
const OTHER: usize = 7;

const CONTENT: usize = 0;
const EXCLUDED: usize = 1;
const BOUNDARY: usize = 2;

/// Markers of USFM, each under the name that a table holds for all its levels.
pub const STANDARD: &[Entry<'static>] = &[
    entry("id", IDENTIFICATION, EXCLUDED),
    entry("c", CHAPTER, CONTENT),
    entry("v", VERSE, CONTENT),
    entry("p", PARAGRAPH, BOUNDARY),
    entry("ide", IDENTIFICATION, EXCLUDED),
    entry("h", IDENTIFICATION, EXCLUDED),
    entry("toc", IDENTIFICATION, EXCLUDED),
    entry("rem", IDENTIFICATION, EXCLUDED),
    entry("mt", PARAGRAPH, EXCLUDED),
    entry("s", PARAGRAPH, EXCLUDED),
    entry("r", PARAGRAPH, EXCLUDED),
    entry("d", PARAGRAPH, CONTENT),
    entry("ip", PARAGRAPH, EXCLUDED),
    entry("cl", PARAGRAPH, EXCLUDED),
    entry("m", PARAGRAPH, BOUNDARY),
    entry("q", PARAGRAPH, BOUNDARY),
    entry("pi", PARAGRAPH, BOUNDARY),
    entry("li", PARAGRAPH, BOUNDARY),
    entry("nb", PARAGRAPH, BOUNDARY),
    entry("b", PARAGRAPH, BOUNDARY),
    entry("tr", PARAGRAPH, BOUNDARY),
    entry("ca", CHARACTER, EXCLUDED),
    entry("cp", PARAGRAPH, EXCLUDED),
    entry("va", CHARACTER, EXCLUDED),
    entry("vp", CHARACTER, EXCLUDED),
    entry("nd", CHARACTER, CONTENT),
    entry("add", CHARACTER, CONTENT),
    entry("wj", CHARACTER, CONTENT),
    entry("k", CHARACTER, CONTENT),
    entry("pn", CHARACTER, CONTENT),
    entry("it", CHARACTER, CONTENT),
    entry("qs", CHARACTER, CONTENT),
    entry("w", CHARACTER, CONTENT),
    entry("wa", CHARACTER, CONTENT),
    entry("wg", CHARACTER, CONTENT),
    entry("wh", CHARACTER, CONTENT),
    entry("rb", CHARACTER, CONTENT),
    entry("fig", CHARACTER, EXCLUDED),
    entry("xt", CHARACTER, CONTENT),
    entry("ref", CHARACTER, CONTENT),
    entry("jmp", CHARACTER, CONTENT),
    entry("tc", CHARACTER, CONTENT),
    entry("tcr", CHARACTER, CONTENT),
    entry("tcc", CHARACTER, CONTENT),
    entry("th", CHARACTER, CONTENT),
    entry("thr", CHARACTER, CONTENT),
    entry("thc", CHARACTER, CONTENT),
    entry("fr", CHARACTER, EXCLUDED),
    entry("ft", CHARACTER, EXCLUDED),
    entry("fk", CHARACTER, EXCLUDED),
    entry("fq", CHARACTER, EXCLUDED),
    entry("fqa", CHARACTER, EXCLUDED),
    entry("fl", CHARACTER, EXCLUDED),
    entry("fw", CHARACTER, EXCLUDED),
    entry("fp", CHARACTER, EXCLUDED),
    entry("fv", CHARACTER, EXCLUDED),
    entry("fdc", CHARACTER, EXCLUDED),
    entry("xo", CHARACTER, EXCLUDED),
    entry("xop", CHARACTER, EXCLUDED),
    entry("xot", CHARACTER, EXCLUDED),
    entry("xnt", CHARACTER, EXCLUDED),
    entry("xdc", CHARACTER, EXCLUDED),
    entry("f", NOTE, EXCLUDED),
    entry("fe", NOTE, EXCLUDED),
    entry("x", NOTE, EXCLUDED),
    entry("qt-s", MILESTONE, CONTENT),
    entry("qt-e", MILESTONE, CONTENT),
    entry("ts", MILESTONE, CONTENT),
    entry("zaln-s", MILESTONE, CONTENT),
    entry("zaln-e", MILESTONE, CONTENT),
    entry("periph", OTHER, EXCLUDED),
    entry("esb", OTHER, EXCLUDED),
];

/// Names that are allowed though no marker of USFM has them.
const ODD: [&str; 14] = [
    "-s",
    "-e",
    "-",
    "1",
    "v1",
    "c2",
    "V",
    "ca1",
    "abcdefghijklmnop",
    "0-0",
    "z",
    "verse",
    "chapter",
    "tc1",
];

/// The table of a document.
pub fn choose(rng: &mut Rng) -> Vec<Entry<'static>> {
    match rng.below(100) {
        0..25 => STANDARD.to_vec(),
        25..75 => subset(rng),
        75..83 => shuffled(rng),
        83..91 => disturbed(rng),
        91..96 => odd(rng),
        96 => repeated(rng),
        _ => Vec::new(),
    }
}

/// Markers that belong together; the first ones are those that the others need.
const FAMILIES: [(usize, &[&str]); 7] = [
    (
        1,
        &[
            "f", "fe", "x", "fr", "ft", "fk", "fq", "fqa", "fl", "fw", "fp", "fv", "fdc", "xo",
            "xop", "xot", "xnt", "xdc",
        ],
    ),
    (2, &["tr", "tc", "tcr", "tcc", "th", "thr", "thc"]),
    (2, &["qt-s", "qt-e", "zaln-s", "zaln-e", "ts"]),
    (
        1,
        &[
            "w", "wa", "wg", "wh", "rb", "fig", "xt", "ref", "jmp", "periph",
        ],
    ),
    (2, &["ca", "va", "cp", "vp"]),
    (1, &["b", "m", "q", "s", "pi", "li", "d"]),
    (1, &["nd", "add", "wj", "k", "pn", "it", "qs"]),
];

/// A few families in any order; mostly with the four markers that nearly every text has.
fn subset(rng: &mut Rng) -> Vec<Entry<'static>> {
    let mut list = Vec::new();
    if rng.percent(85) {
        list.extend_from_slice(&STANDARD[..4]);
    }
    for _ in 0..rng.below(4) {
        let (needed, names) = rng.pick(&FAMILIES);
        let mut names = names.to_vec();
        rng.shuffle(&mut names[needed..]);
        let len = rng.from_to(needed, names.len().min(needed + 4));
        list.extend(names[..len].iter().map(|name| standard(name)));
    }
    for _ in 0..rng.below(4) {
        list.push(rng.pick(STANDARD));
    }
    if rng.percent(50) {
        rng.shuffle(&mut list);
    }
    list
}

fn standard(name: &str) -> Entry<'static> {
    let known = STANDARD.iter().find(|entry| entry.name == name);
    *known.expect("a family holds standard markers")
}

fn shuffled(rng: &mut Rng) -> Vec<Entry<'static>> {
    let mut list = STANDARD.to_vec();
    rng.shuffle(&mut list);
    list
}

/// Repeated names, and categories and roles that the marker doesn't have in USFM.
fn disturbed(rng: &mut Rng) -> Vec<Entry<'static>> {
    let mut list = subset(rng);
    for _ in 0..rng.from_to(1, 5) {
        let mut entry = rng.pick(STANDARD);
        if rng.percent(70) {
            entry.category = rng.below(CATEGORIES.len());
            entry.role = rng.below(ROLES.len());
        }
        let place = rng.below(list.len() + 1);
        list.insert(place, entry);
    }
    list
}

fn odd(rng: &mut Rng) -> Vec<Entry<'static>> {
    let mut list = subset(rng);
    for _ in 0..rng.from_to(1, 6) {
        let category = rng.below(CATEGORIES.len());
        let role = rng.below(ROLES.len());
        let place = rng.below(list.len() + 1);
        list.insert(place, entry(rng.pick(&ODD), category, role));
    }
    list
}

/// The standard markers over and over, up to the limit or just past it.
fn repeated(rng: &mut Rng) -> Vec<Entry<'static>> {
    let len = rng.from_to(MOST_MARKERS - 2, MOST_MARKERS + 1);
    STANDARD.iter().copied().cycle().take(len).collect()
}
