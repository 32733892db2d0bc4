//! What a document and its answer show, as numbers: the choice of recorded documents goes by them.

mod surroundings;

use crate::coverage::depth;
use crate::document::{Document, Node, entries, kind};
use crate::parts::{attached_at_top, strip_level_suffix};
use crate::recorded::{Answer, Finding};
use crate::refusals::{is_blank, marker_name};

/// A feature: what it is about, and which of these it is.
pub type Feature = (u8, u64);

pub const REFUSAL: u8 = 0;
pub const FORM: u8 = 1;
/// A refusal's number with the size class of its place.
const REFUSAL_PLACE: u8 = 2;
const CHARACTER: u8 = 3;
const KINDS: u8 = 4;
const DEPTH: u8 = 5;
const ROOT: u8 = 6;
const TABLE: u8 = 7;
const LIST: u8 = 8;
const ATTACHED: u8 = 9;
const MARKER: u8 = 10;
const NAME: u8 = 11;
const EXPECTED: u8 = 12;
const SCRIPT: u8 = 13;
/// From this one on a feature is about what stands beside what.
pub const SURROUNDINGS: u8 = 16;
/// From this one on a feature is one of very many.
pub const SHAPES: u8 = 24;
/// Two findings in a row.
const NEIGHBOURS: u8 = SHAPES;

/// All features, each once.
pub fn features(document: &Document, answer: &Answer) -> Vec<Feature> {
    let mut out = Vec::new();
    match answer {
        Answer::Refused(number, place) => refused(document, *number, *place, &mut out),
        Answer::Checked(list) => checked(document, list, &mut out),
    }
    out.sort();
    out.dedup();
    out
}

fn refused(document: &Document, number: u32, place: u32, out: &mut Vec<Feature>) {
    let number = u64::from(number);
    let n = document.node_count() as u32;
    let class = match place {
        0 => 0,
        _ if place == n => 1,
        _ if place as usize == document.table.len() => 2,
        _ if place as usize == document.source.len() => 3,
        1..8 => 4,
        _ => 5,
    };
    out.push((REFUSAL, number));
    out.push((REFUSAL_PLACE, number * 8 + class));
}

fn checked(document: &Document, list: &[Finding], out: &mut Vec<Feature>) {
    of_findings(list, out);
    of_source(&document.source, out);
    of_tape(document, out);
    of_markers(document, out);
    out.push((ATTACHED, attached_at_top(document).min(3) as u64));
    surroundings::add(document, out);
}

fn form_number(finding: &Finding) -> u64 {
    u64::from(finding.code) * 4 + u64::from(finding.form)
}

fn of_findings(list: &[Finding], out: &mut Vec<Feature>) {
    for finding in list {
        out.push((FORM, form_number(finding)));
        if finding.code == 11 {
            out.push((EXPECTED, finding.numbers[1]));
        }
    }
    for pair in list.windows(2) {
        out.push((
            NEIGHBOURS,
            form_number(&pair[0]) * 256 + form_number(&pair[1]),
        ));
    }
    out.push((
        LIST,
        u64::from(list.len().checked_ilog2().map_or(0, |log| log + 1)),
    ));
}

/// Blanks and the characters beside them one by one, scripts by their blocks of 4,096.
fn of_source(source: &[u8], out: &mut Vec<Feature>) {
    for c in String::from_utf8_lossy(source).chars() {
        let code = u64::from(u32::from(c));
        let beside = |by: i32| {
            let other = u32::from(c).checked_add_signed(by);
            other.and_then(char::from_u32).is_some_and(is_blank)
        };
        if is_blank(c) || beside(1) || beside(-1) || matches!(code, 0x180E | 0xFEFF) {
            out.push((CHARACTER, code));
        }
        out.push((SCRIPT, code >> 12));
    }
}

fn of_tape(document: &Document, out: &mut Vec<Feature>) {
    let nodes: Vec<Node> = document.nodes().collect();
    for pair in nodes.windows(2) {
        out.push((
            KINDS,
            u64::from(pair[0].kind) * 16 + u64::from(pair[1].kind),
        ));
    }
    let depth = depth(document) as u64;
    out.push((
        DEPTH,
        if !(8..=62).contains(&depth) {
            depth
        } else {
            depth / 8 * 8
        },
    ));
    let last = nodes[nodes.len() - 1].kind;
    let own_close = nodes[0].link as usize != nodes.len();
    out.push((ROOT, if own_close { u64::from(last) } else { 0 }));
}

fn of_markers(document: &Document, out: &mut Vec<Feature>) {
    let entries = entries(&document.table).unwrap_or_default();
    let source = String::from_utf8_lossy(&document.source);
    let size = entries.len().checked_ilog2().map_or(0, |log| log + 1);
    out.push((TABLE, u64::from(size)));
    for node in document.nodes().skip(1) {
        if !matches!(node.kind, kind::MARKER_OPEN | kind::CHAPTER | kind::VERSE) {
            continue;
        }
        let kind = u64::from(node.kind);
        let Some(entry) = entries.get(node.marker as usize) else {
            out.push((MARKER, kind * 64 + 63));
            continue;
        };
        out.push((MARKER, kind * 64 + (entry.category * 4 + entry.role) as u64));
        let name = marker_name(&source[node.start as usize..node.end() as usize]);
        out.push((NAME, kind * 4 + name_class(name, entry.name)));
    }
}

/// How the source's name differs from the table's.
fn name_class(name: &str, of_table: &str) -> u64 {
    if name == of_table {
        0
    } else if strip_level_suffix(name) == of_table {
        1
    } else if name.len() > of_table.len() {
        2
    } else {
        3
    }
}
