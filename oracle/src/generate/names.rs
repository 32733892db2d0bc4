//! Names that markers have in the source, and book codes.

use crate::rng::Rng;
use crate::serialize::vref::BOOK_CODES;

pub const BODY: [&str; 9] = ["p", "p", "m", "q", "q1", "q2", "pi1", "li1", "nb"];
pub const HEADS: [&str; 12] = [
    "mt", "mt1", "s", "s1", "r", "d", "ip", "cl", "h", "toc1", "rem", "ide",
];
pub const CHARACTERS: [&str; 8] = ["nd", "add", "wj", "k", "pn", "it", "qs", "xt"];
pub const NOTES: [&str; 4] = ["f", "f", "fe", "x"];
pub const NOTE_ONLY: [&str; 16] = [
    "fr", "ft", "fk", "fq", "fqa", "fl", "fw", "fp", "fv", "fdc", "xop", "xot", "xnt", "xdc", "xo",
    "ft1",
];
/// Markers that have attributes; the last one has no default attribute.
pub const WORDS: [&str; 11] = [
    "w", "w", "w", "wa", "wg", "wh", "ref", "jmp", "xt", "periph", "pn",
];
/// Codes that are no book's, front matter, and letters that only Unicode's upper case makes right.
const ODD_CODES: [&str; 20] = [
    "FRT",
    "INT",
    "BAK",
    "OTH",
    "CNC",
    "GLO",
    "TDX",
    "NDX",
    "frt",
    "Ndx",
    "XYZ",
    "TST",
    "GENESIS",
    "GE",
    "\"",
    "ＧＥＮ",
    "ßEN",
    "GEN\u{200B}",
    "PſA",
    "tıt",
];
/// Prefixes of cells.
pub const CELLS: [&str; 6] = ["tc", "tcr", "tcc", "th", "thr", "thc"];
/// Names that are no cell or an odd one.
pub const ODD_CELLS: [&str; 24] = [
    "tc",
    "th",
    "tcr",
    "tc0",
    "tc+1",
    "tc+2",
    "tc++1",
    "tc-1",
    "tc1-",
    "tc1-+2",
    "tc01",
    "tc2-1",
    "tc1-2-3",
    "tc1a",
    "tcx",
    "t1",
    "TC1",
    "thr٣",
    "tc4294967296",
    "tc1-4294967296",
    "tc1-4294967294",
    "td1",
    "nd",
    "+tc1",
];
pub const BASES: [&str; 12] = [
    "qt", "qt", "qt", "qt1", "qt2", "zaln", "zaln", "ts", "", "λ", "qt-s", "x-e",
];
pub const SUFFIXES: [&str; 9] = ["-s", "-s", "-s", "-s", "-e", "-e", "-e", "-e", ""];
pub const UNKNOWN: [&str; 11] = [
    "zz", "ZZZ9", "é", "神1", "", "v", "c", "x1-2", "k|", "\\p", "\\ca",
];
pub const NUMBERS: [&str; 4] = ["ca", "cp", "va", "vp"];
/// Names of a Chapter or Verse that is neither `c` nor `v`; many hold characters of several bytes.
pub const ODD_NAMES: [&str; 12] = [
    "é", "é3", "vé", "v\u{e9}3", "cé", "章1", "v節", "😀", "x12", "verse", "", "aé9",
];

/// The code of an `\id` line.
pub fn book_code(rng: &mut Rng) -> String {
    match rng.below(10) {
        0..2 => "GEN".to_string(),
        2..5 => rng.pick(BOOK_CODES).to_string(),
        5 => rng.pick(BOOK_CODES).to_lowercase(),
        6 => {
            let code = rng.pick(BOOK_CODES);
            code[..1].to_string() + &code[1..].to_lowercase()
        }
        _ => rng.pick(&ODD_CODES).to_string(),
    }
}
