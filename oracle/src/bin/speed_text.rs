//! The UTF-8 check beside `std::str::from_utf8`, on the same megabytes of text, in one run.

use std::hint::black_box;
use std::time::Instant;

use oracle::library;

const SIZE: usize = 1 << 20;

const TEXTS: [(&str, &str); 7] = [
    (
        "ASCII",
        "\\v 2 And the earth was without form, and void; and darkness was upon the face of the deep.\n",
    ),
    (
        "French",
        "\\v 2 La terre était informe et vide: il y avait des ténèbres à la surface de l'abîme.\n",
    ),
    (
        "Greek",
        "Ἐν ἀρχῇ ἦν ὁ λόγος, καὶ ὁ λόγος ἦν πρὸς τὸν θεόν, καὶ θεὸς ἦν ὁ λόγος. ",
    ),
    (
        "Greek, modern",
        "Στην αρχη ηταν ο Λογος, και ο Λογος ηταν με τον Θεο. ",
    ),
    ("Arabic", "فِي الْبَدْءِ كَانَ الْكَلِمَةُ، "),
    ("Chinese", "太初有道，道与神同在，道就是神。"),
    ("emoji and ASCII", "a😀b😀 😀😀é "),
];

fn filled(piece: &str) -> Vec<u8> {
    let mut text = String::new();
    while text.len() + piece.len() <= SIZE {
        text.push_str(piece);
    }
    while text.len() < SIZE {
        text.push(' ');
    }
    text.into_bytes()
}

fn once(f: &mut dyn FnMut() -> bool) -> f64 {
    let start = Instant::now();
    for _ in 0..10 {
        assert!(f());
    }
    start.elapsed().as_secs_f64() / 10.0
}

fn main() {
    println!("{SIZE} bytes each; the best of 60 rounds, the two taken in turn");
    for (name, piece) in TEXTS {
        let text = filled(piece);
        let mut ours = || library::utf8_check(black_box(&text)) == SIZE;
        let mut theirs = || std::str::from_utf8(black_box(&text)).is_ok();
        let (mut a, mut b) = (f64::MAX, f64::MAX);
        for _ in 0..60 {
            a = a.min(once(&mut ours));
            b = b.min(once(&mut theirs));
        }
        println!(
            "{name:14} library {:7.1} µs   std {:7.1} µs   ratio {:.2}",
            a * 1e6,
            b * 1e6,
            a / b
        );
    }
}
