//! The functions of the Rattle library: single ones as the static library of the crate `oracle_exports` has them, the whole
//! check through the binding. Each takes any slice.

use std::ffi::c_uchar;

use harkoxin::raw::{self, OpenStart};

use crate::document::Document;
use crate::unreadable::Part;

#[link(name = "oracle_exports", kind = "static")]
unsafe extern "C" {
    fn compared_utf8_check(s: *const c_uchar, n: usize) -> usize;
    fn compared_code_point(s: *const c_uchar, n: usize, at: usize) -> u32;
    fn compared_width(s: *const c_uchar, n: usize, at: usize) -> usize;
    fn compared_is_char_boundary(s: *const c_uchar, n: usize, at: usize) -> bool;
    fn compared_is_blank(cp: u32) -> bool;
    fn compared_find_byte(s: *const c_uchar, n: usize, b: u8) -> usize;
    fn compared_find_blank(s: *const c_uchar, n: usize) -> usize;
    fn compared_find_non_digit(s: *const c_uchar, n: usize) -> usize;
    fn compared_parse(s: *const c_uchar, n: usize) -> u64;
    fn compared_trim_start(s: *const c_uchar, n: usize, out: *mut c_uchar, room: usize) -> usize;
    fn compared_trim(s: *const c_uchar, n: usize, out: *mut c_uchar, room: usize) -> usize;
    fn compared_first_word(s: *const c_uchar, n: usize, out: *mut c_uchar, room: usize) -> usize;
    fn compared_second_word(s: *const c_uchar, n: usize, out: *mut c_uchar, room: usize) -> usize;
    fn compared_tape_check(
        source: *const c_uchar,
        source_len: usize,
        tape: *const c_uchar,
        tape_len: usize,
    ) -> u64;
    fn compared_text(
        source: *const c_uchar,
        source_len: usize,
        tape: *const c_uchar,
        tape_len: usize,
        i: usize,
        out: *mut c_uchar,
        room: usize,
    ) -> usize;
    fn compared_marker_name(
        source: *const c_uchar,
        source_len: usize,
        tape: *const c_uchar,
        tape_len: usize,
        i: usize,
        out: *mut c_uchar,
        room: usize,
    ) -> usize;
    fn compared_first_child(tape: *const c_uchar, n: usize, i: usize) -> u64;
    fn compared_next_sibling(tape: *const c_uchar, n: usize, i: usize) -> u64;
    fn compared_number(tape: *const c_uchar, n: usize, i: usize) -> u64;
    fn compared_table(table: *const c_uchar, n: usize) -> u64;
    fn compared_lookup(
        table: *const c_uchar,
        table_len: usize,
        name: *const c_uchar,
        name_len: usize,
    ) -> u64;
    fn compared_info(table: *const c_uchar, n: usize, k: u16) -> u64;
    fn compared_marker_info(
        table: *const c_uchar,
        table_len: usize,
        tape: *const c_uchar,
        tape_len: usize,
        i: usize,
    ) -> u64;
    fn compared_strip_level_suffix(
        name: *const c_uchar,
        n: usize,
        out: *mut c_uchar,
        room: usize,
    ) -> usize;
    fn compared_default_attribute(name: *const c_uchar, n: usize) -> u8;
    fn compared_book(code: *const c_uchar, n: usize) -> u16;
    fn compared_is_front_matter_code(code: *const c_uchar, n: usize) -> bool;
    fn compared_is_note_only_marker(name: *const c_uchar, n: usize) -> bool;
    fn compared_part_number(s: *const c_uchar, n: usize) -> u64;
    fn compared_part_letter(s: *const c_uchar, n: usize) -> u8;
    fn compared_end_number(s: *const c_uchar, n: usize) -> u64;
    fn compared_end_letter(s: *const c_uchar, n: usize) -> u8;
    fn compared_cell_start(name: *const c_uchar, n: usize) -> u64;
    fn compared_cell_end(name: *const c_uchar, n: usize) -> u64;
    fn compared_sequence(expected: u64, wanted: u8, actual: u64, given: u8) -> bool;
    fn compared_next_number(num: u64, letter: u8) -> u64;
    fn compared_next_letter(num: u64, letter: u8) -> u8;
    fn compared_label(
        table: *const c_uchar,
        table_len: usize,
        source: *const c_uchar,
        source_len: usize,
        tape: *const c_uchar,
        tape_len: usize,
        i: usize,
        out: *mut c_uchar,
        room: usize,
    ) -> usize;
    fn compared_is_glued(
        table: *const c_uchar,
        table_len: usize,
        source: *const c_uchar,
        source_len: usize,
        tape: *const c_uchar,
        tape_len: usize,
        i: usize,
    ) -> bool;
    fn compared_label_check(
        table: *const c_uchar,
        table_len: usize,
        source: *const c_uchar,
        source_len: usize,
        tape: *const c_uchar,
        tape_len: usize,
    ) -> u64;
    fn compared_row(
        source: *const c_uchar,
        source_len: usize,
        tape: *const c_uchar,
        tape_len: usize,
        i: usize,
        list: *mut u64,
        room: usize,
    ) -> u64;
    fn compared_attributes(
        source: *const c_uchar,
        source_len: usize,
        tape: *const c_uchar,
        tape_len: usize,
        i: usize,
        list: *mut u64,
        room: usize,
    ) -> u64;
    fn compared_attached(
        source: *const c_uchar,
        source_len: usize,
        tape: *const c_uchar,
        tape_len: usize,
        parent: usize,
        i: usize,
        list: *mut u64,
        room: usize,
    ) -> u64;
    fn compared_is_attached(
        source: *const c_uchar,
        source_len: usize,
        tape: *const c_uchar,
        tape_len: usize,
        parent: usize,
        i: usize,
        at: u32,
    ) -> bool;
}

pub fn utf8_check(s: &[u8]) -> usize {
    unsafe { compared_utf8_check(s.as_ptr(), s.len()) }
}

/// The code point at a place, and its width.
pub fn decode_at(s: &[u8], at: usize) -> (u32, usize) {
    unsafe {
        (
            compared_code_point(s.as_ptr(), s.len(), at),
            compared_width(s.as_ptr(), s.len(), at),
        )
    }
}

pub fn is_char_boundary(s: &[u8], at: usize) -> bool {
    unsafe { compared_is_char_boundary(s.as_ptr(), s.len(), at) }
}

pub fn is_blank(cp: u32) -> bool {
    unsafe { compared_is_blank(cp) }
}

pub fn find_byte(s: &[u8], b: u8) -> usize {
    unsafe { compared_find_byte(s.as_ptr(), s.len(), b) }
}

pub fn find_blank(s: &[u8]) -> usize {
    unsafe { compared_find_blank(s.as_ptr(), s.len()) }
}

pub fn find_non_digit(s: &[u8]) -> usize {
    unsafe { compared_find_non_digit(s.as_ptr(), s.len()) }
}

pub fn parse(s: &[u8]) -> Option<u32> {
    u32::try_from(unsafe { compared_parse(s.as_ptr(), s.len()) }).ok()
}

type Copier = unsafe extern "C" fn(*const c_uchar, usize, *mut c_uchar, usize) -> usize;

/// The part that a function hands back, copied out.
fn part(f: Copier, s: &[u8]) -> Vec<u8> {
    let mut out = vec![0; s.len()];
    let n = unsafe { f(s.as_ptr(), s.len(), out.as_mut_ptr(), out.len()) };
    out.truncate(n);
    out
}

pub fn trim_start(s: &[u8]) -> Vec<u8> {
    part(compared_trim_start, s)
}

pub fn trim(s: &[u8]) -> Vec<u8> {
    part(compared_trim, s)
}

pub fn first_word(s: &[u8]) -> Vec<u8> {
    part(compared_first_word, s)
}

pub fn second_word(s: &[u8]) -> Vec<u8> {
    part(compared_second_word, s)
}

pub fn strip_level_suffix(name: &[u8]) -> Vec<u8> {
    part(compared_strip_level_suffix, name)
}

/// A number of up to 32 bits; the library says none by one that is larger.
fn small(word: u64) -> Option<u32> {
    u32::try_from(word).ok()
}

fn place(word: u64) -> Option<usize> {
    small(word).map(|place| place as usize)
}

/// The number that turns a tape back, with its place.
pub fn tape_check(source: &[u8], tape: &[u8]) -> Option<(u32, u64)> {
    let answer =
        unsafe { compared_tape_check(source.as_ptr(), source.len(), tape.as_ptr(), tape.len()) };
    (answer != 0).then_some(((answer >> 32) as u32, answer & 0xFFFF_FFFF))
}

pub fn text(source: &[u8], tape: &[u8], i: usize) -> Vec<u8> {
    node_part(compared_text, source, tape, i)
}

pub fn marker_name(source: &[u8], tape: &[u8], i: usize) -> Vec<u8> {
    node_part(compared_marker_name, source, tape, i)
}

type NodeCopier = unsafe extern "C" fn(
    *const c_uchar,
    usize,
    *const c_uchar,
    usize,
    usize,
    *mut c_uchar,
    usize,
) -> usize;

fn node_part(f: NodeCopier, source: &[u8], tape: &[u8], i: usize) -> Vec<u8> {
    let mut out = vec![0; source.len()];
    let (s, t) = (source.as_ptr(), tape.as_ptr());
    let n = unsafe {
        f(
            s,
            source.len(),
            t,
            tape.len(),
            i,
            out.as_mut_ptr(),
            out.len(),
        )
    };
    out.truncate(n);
    out
}

pub fn first_child(tape: &[u8], i: usize) -> Option<usize> {
    place(unsafe { compared_first_child(tape.as_ptr(), tape.len(), i) })
}

pub fn next_sibling(tape: &[u8], i: usize) -> Option<usize> {
    place(unsafe { compared_next_sibling(tape.as_ptr(), tape.len(), i) })
}

/// A node's children: the first one, and the siblings after it.
pub fn children(tape: &[u8], i: usize) -> Vec<usize> {
    std::iter::successors(first_child(tape, i), |&k| next_sibling(tape, k)).collect()
}

pub fn number(tape: &[u8], i: usize) -> Option<u32> {
    small(unsafe { compared_number(tape.as_ptr(), tape.len(), i) })
}

/// The number of a table's entries, or the place that number 1 gives.
pub fn table(table: &[u8]) -> Result<usize, u64> {
    let answer = unsafe { compared_table(table.as_ptr(), table.len()) };
    place(answer).ok_or(answer & 0xFFFF_FFFF)
}

pub fn lookup(table: &[u8], name: &[u8]) -> Option<u16> {
    let (t, n) = (table.as_ptr(), name.as_ptr());
    let answer = unsafe { compared_lookup(t, table.len(), n, name.len()) };
    u16::try_from(answer).ok()
}

/// Category and role of an entry.
fn entry(answer: u64) -> Option<(u8, u8)> {
    small(answer).map(|word| ((word % 8) as u8, (word / 8) as u8))
}

pub fn info(table: &[u8], k: u16) -> Option<(u8, u8)> {
    entry(unsafe { compared_info(table.as_ptr(), table.len(), k) })
}

pub fn marker_info(table: &[u8], tape: &[u8], i: usize) -> Option<(u8, u8)> {
    let (t, n) = (table.as_ptr(), tape.as_ptr());
    entry(unsafe { compared_marker_info(t, table.len(), n, tape.len(), i) })
}

pub fn default_attribute(name: &[u8]) -> Option<&'static str> {
    const NAMES: [&str; 7] = ["lemma", "gloss", "href", "loc", "link-href", "id", "who"];
    let answer = unsafe { compared_default_attribute(name.as_ptr(), name.len()) };
    NAMES.get(answer as usize).copied()
}

pub fn book(code: &[u8]) -> Option<u8> {
    u8::try_from(unsafe { compared_book(code.as_ptr(), code.len()) }).ok()
}

pub fn is_front_matter_code(code: &[u8]) -> bool {
    unsafe { compared_is_front_matter_code(code.as_ptr(), code.len()) }
}

pub fn is_note_only_marker(name: &[u8]) -> bool {
    unsafe { compared_is_note_only_marker(name.as_ptr(), name.len()) }
}

/// The answer of a part reading in words: number and letter where it is read; else one of two numbers that no label has, and 0.
pub type PartWords = (u64, u8);

/// These words of an answer.
pub fn part_words(part: Part) -> PartWords {
    match part {
        Part::Read((number, letter)) => (number.into(), letter),
        Part::NoDigits => (u64::MAX, 0),
        Part::TooLarge => (u64::MAX - 1, 0),
    }
}

pub fn parse_verse_part(label: &[u8]) -> PartWords {
    let (s, n) = (label.as_ptr(), label.len());
    unsafe { (compared_part_number(s, n), compared_part_letter(s, n)) }
}

pub fn parse_verse_range_end(label: &[u8]) -> PartWords {
    let (s, n) = (label.as_ptr(), label.len());
    unsafe { (compared_end_number(s, n), compared_end_letter(s, n)) }
}

pub fn is_valid_verse_sequence(expected: (u32, u8), actual: (u32, u8)) -> bool {
    unsafe { compared_sequence(expected.0.into(), expected.1, actual.0.into(), actual.1) }
}

/// The position after another; its number can be one past 32 bits.
pub fn next_expected(of: (u32, u8)) -> (u64, u8) {
    unsafe {
        (
            compared_next_number(of.0.into(), of.1),
            compared_next_letter(of.0.into(), of.1),
        )
    }
}

pub fn table_cell_columns(name: &[u8]) -> Option<(u32, u32)> {
    let (s, n) = (name.as_ptr(), name.len());
    let start = small(unsafe { compared_cell_start(s, n) })?;
    Some((start, small(unsafe { compared_cell_end(s, n) })?))
}

/// The label of a chapter or a verse, and whether it is glued to its marker.
pub fn number_label(document: &Document, i: usize) -> (Vec<u8>, bool) {
    let (table, source, tape) = (&document.table, &document.source, &document.tape);
    let mut out = vec![0; source.len()];
    let n = unsafe {
        compared_label(
            table.as_ptr(),
            table.len(),
            source.as_ptr(),
            source.len(),
            tape.as_ptr(),
            tape.len(),
            i,
            out.as_mut_ptr(),
            out.len(),
        )
    };
    out.truncate(n);
    let glued = unsafe {
        compared_is_glued(
            table.as_ptr(),
            table.len(),
            source.as_ptr(),
            source.len(),
            tape.as_ptr(),
            tape.len(),
            i,
        )
    };
    (out, glued)
}

/// The place that number 9 gives.
pub fn label_check(document: &Document) -> Option<usize> {
    let (table, source, tape) = (&document.table, &document.source, &document.tape);
    place(unsafe {
        compared_label_check(
            table.as_ptr(),
            table.len(),
            source.as_ptr(),
            source.len(),
            tape.as_ptr(),
            tape.len(),
        )
    })
}

type Finder = unsafe extern "C" fn(
    *const c_uchar,
    usize,
    *const c_uchar,
    usize,
    usize,
    *mut u64,
    usize,
) -> u64;

/// The findings of an open node, eight words each, or `None` where it is no open node.
fn findings(f: Finder, source: &[u8], tape: &[u8], i: usize) -> Option<Vec<[u64; 8]>> {
    let (s, t) = (source.as_ptr(), tape.as_ptr());
    let mut list = vec![0u64; tape.len() / 2];
    // A second call where there are more findings than nodes.
    let words = loop {
        let (l, room) = (list.as_mut_ptr(), list.len());
        let words = 8 * place(unsafe { f(s, source.len(), t, tape.len(), i, l, room) })?;
        if words <= room {
            break words;
        }
        list.resize(words, 0);
    };
    Some(
        list[..words]
            .chunks_exact(8)
            .map(|words| words.try_into().expect("eight words"))
            .collect(),
    )
}

/// The findings of the cells of an open node.
pub fn table_row(source: &[u8], tape: &[u8], i: usize) -> Option<Vec<[u64; 8]>> {
    findings(compared_row, source, tape, i)
}

/// The findings of the attributes of an open node.
pub fn attributes(source: &[u8], tape: &[u8], i: usize) -> Option<Vec<[u64; 8]>> {
    findings(compared_attributes, source, tape, i)
}

/// The starts of the numbers attached to a chapter or a verse among a node's children, or `None` where it is none of them.
pub fn attached_numbers(
    source: &[u8],
    tape: &[u8],
    (parent, i): (usize, usize),
) -> Option<Vec<u64>> {
    let mut list = vec![0u64; 2];
    let (s, t) = (source.as_ptr(), tape.as_ptr());
    let (l, room) = (list.as_mut_ptr(), list.len());
    let answer = unsafe { compared_attached(s, source.len(), t, tape.len(), parent, i, l, room) };
    list.truncate(place(answer)?);
    Some(list)
}

/// Whether a number that starts at the offset is attached to a node's child.
pub fn is_attached(source: &[u8], tape: &[u8], (parent, i): (usize, usize), at: u32) -> bool {
    let (s, t) = (source.as_ptr(), tape.as_ptr());
    unsafe { compared_is_attached(s, source.len(), t, tape.len(), parent, i, at) }
}

/// The lists that a caller lends to the check, and the one that its answer is written over.
pub struct Lent<'a> {
    pub seen: &'a mut [u32],
    pub opens: &'a mut [OpenStart],
    pub list: &'a mut [u64],
    pub answer: &'a mut [u64],
}

/// The whole check of a document.
pub fn check(document: &Document, lent: Lent<'_>) {
    raw::check(
        &document.table,
        &document.source,
        &document.tape,
        lent.seen,
        lent.opens,
        lent.list,
        lent.answer,
    );
}
