//! Compares the functions of the crate `text` with Rust's std: every code point, every byte string of up to three bytes,
//! strings of four to six bytes from the borders of Table 3-7, and generated text. Exit status 1 at the first difference.

use std::process::exit;

use oracle::arguments::numbers;
use oracle::differ::same;
use oracle::generate::generate;
use oracle::library;
use oracle::rng::Rng;

/// Bytes at the borders of the ranges of Table 3-7.
const BORDERS: [u8; 22] = [
    0x00, 0x41, 0x7F, 0x80, 0x8F, 0x90, 0x9F, 0xA0, 0xBF, 0xC0, 0xC1, 0xC2, 0xDF, 0xE0, 0xE1, 0xED,
    0xEF, 0xF0, 0xF1, 0xF4, 0xF5, 0xFF,
];

/// Blanks and near misses, and characters of words and numbers.
const CHARACTERS: [char; 36] = [
    ' ', '\t', '\n', '\u{b}', '\r', '\u{85}', '\u{a0}', '\u{1680}', '\u{2000}', '\u{200a}',
    '\u{2028}', '\u{2029}', '\u{202f}', '\u{205f}', '\u{3000}', '\u{200b}', '\u{feff}', '\u{180e}',
    '\u{1c}', 'a', 'v', '\\', '-', '=', '"', '0', '1', '9', '+', 'é', 'λ', 'ו', 'ب', '道',
    '\u{fffd}', '😀',
];

/// What std decodes at a place: the first of one to four bytes that are one character, else U+FFFD.
fn decoded(s: &[u8], at: usize) -> (u32, usize) {
    if s.len() <= at {
        return (0xFFFD, 0);
    }
    for width in 1..=4.min(s.len() - at) {
        if let Ok(text) = std::str::from_utf8(&s[at..at + width]) {
            return (text.chars().next().map_or(0, u32::from), width);
        }
    }
    (0xFFFD, 1)
}

fn bytes(s: &[u8]) {
    let place = std::str::from_utf8(s).map_or_else(|e| e.valid_up_to(), str::len);
    same("utf8_check", &s, library::utf8_check(s), place);
    for at in 0..=s.len() + 1 {
        same("decode_at", &s, library::decode_at(s, at), decoded(s, at));
    }
    for b in [b'-', b'=', 0x80, 0xBF, 0xFF] {
        let found = s.iter().position(|&x| x == b).unwrap_or(s.len());
        same("find_byte", &s, library::find_byte(s, b), found);
    }
}

fn text(t: &str) {
    let s = t.as_bytes();
    for at in 0..=s.len() + 1 {
        same(
            "is_char_boundary",
            &s,
            library::is_char_boundary(s, at),
            t.is_char_boundary(at),
        );
    }
    for c in ['-', '=', '"', '\\', '1', 'a'] {
        let found = t.find(c).unwrap_or(s.len());
        same(
            "find of a character",
            &s,
            library::find_byte(s, c as u8),
            found,
        );
    }
    let digits = t.find(|c: char| !c.is_ascii_digit()).unwrap_or(s.len());
    same("find_non_digit", &s, library::find_non_digit(s), digits);
    let blank = t.find(char::is_whitespace).unwrap_or(s.len());
    same("find_blank", &s, library::find_blank(s), blank);
    let mut words = t.split_whitespace();
    let word = |w: Option<&str>| w.unwrap_or("").as_bytes().to_vec();
    same("first_word", &s, library::first_word(s), word(words.next()));
    same(
        "second_word",
        &s,
        library::second_word(s),
        word(words.next()),
    );
    same(
        "trim_start",
        &s,
        library::trim_start(s),
        t.trim_start().as_bytes().to_vec(),
    );
    same("trim", &s, library::trim(s), t.trim().as_bytes().to_vec());
    same("parse", &s, library::parse(s), t.parse().ok());
}

/// The text as it is if it is UTF-8, and as bytes in any case.
fn either(s: &[u8]) {
    bytes(s);
    if let Ok(t) = std::str::from_utf8(s) {
        text(t);
    }
}

fn code_points() {
    for cp in 0..=0x11_0000 {
        let blank = char::from_u32(cp).is_some_and(char::is_whitespace);
        same("is_blank", &cp, library::is_blank(cp), blank);
        if let Some(c) = char::from_u32(cp) {
            let mut room = [0; 4];
            let s = c.encode_utf8(&mut room).as_bytes();
            same("decode_at", &s, library::decode_at(s, 0), (cp, s.len()));
        }
    }
}

/// Every string of the length over the alphabet.
fn all_strings(alphabet: &[u8], length: usize, each: &mut impl FnMut(&[u8])) {
    let mut places = vec![0; length];
    let mut s = vec![alphabet[0]; length];
    loop {
        each(&s);
        let Some(k) = (0..length).rfind(|&k| places[k] + 1 < alphabet.len()) else {
            return;
        };
        places[k] += 1;
        s[k] = alphabet[places[k]];
        for j in k + 1..length {
            places[j] = 0;
            s[j] = alphabet[0];
        }
    }
}

fn short_strings() -> u64 {
    let every: Vec<u8> = (0..=255).collect();
    let mut count = 0;
    let mut place = |s: &[u8]| {
        let theirs = std::str::from_utf8(s).map_or_else(|e| e.valid_up_to(), str::len);
        same("utf8_check", &s, library::utf8_check(s), theirs);
        count += 1;
    };
    for length in 0..=3 {
        all_strings(&every, length, &mut place);
    }
    for length in 4..=5 {
        all_strings(&BORDERS, length, &mut place);
    }
    for length in 0..=3 {
        all_strings(&BORDERS, length, &mut either);
    }
    count
}

/// Random bytes, weighted so that long well-formed beginnings occur.
fn random_bytes(rng: &mut Rng) -> Vec<u8> {
    (0..rng.below(80))
        .map(|_| match rng.below(40) {
            0 => rng.below(256) as u8,
            1 => 0xE0 + rng.below(16) as u8,
            2 => 0xF0 + rng.below(8) as u8,
            3 => 0xC0 + rng.below(32) as u8,
            4..=9 => 0x80 + rng.below(64) as u8,
            _ => b'a',
        })
        .collect()
}

fn random_text(rng: &mut Rng) -> String {
    (0..rng.below(16)).map(|_| rng.pick(&CHARACTERS)).collect()
}

/// Numbers around the limit, with signs, zeros and letters.
fn random_number(rng: &mut Rng) -> String {
    let mut out = String::new();
    for _ in 0..rng.below(3) {
        out.push(rng.pick(&['+', '0', '-']));
    }
    let value = match rng.below(3) {
        0 => rng.below(1000) as u64,
        1 => u64::from(u32::MAX) - 2 + rng.below(5) as u64,
        _ => rng.word(),
    };
    out.push_str(&value.to_string());
    if rng.below(8) == 0 {
        out.push(rng.pick(&['a', ' ', '-', '\u{660}']));
    }
    out
}

fn main() {
    let (mut count, mut seed) = (300_000, 1);
    if let Err(why) = numbers(&mut [("--strings", &mut count), ("--seed", &mut seed)]) {
        eprintln!("{why}");
        exit(1);
    }
    code_points();
    let short = short_strings();
    let mut rng = Rng::new(seed);
    for k in 0..count {
        either(&random_bytes(&mut rng));
        text(&random_text(&mut rng));
        text(&random_number(&mut rng));
        if k % 64 == 0 {
            either(&generate(seed.wrapping_add(k)).source);
        }
    }
    println!(
        "text: no difference from std on all code points, {short} short strings and {count} generated strings of each kind (seed {seed})"
    );
}
