//! Compares the library's reading and ordering of verse positions, and the columns of cells, with the published functions, and
//! the three answers of the reading with document 02's, plainly. Exit status 1 at the first difference.

use std::process::exit;

use oracle::arguments::numbers;
use oracle::differ::same;
use oracle::rng::Rng;
use oracle::unreadable::{Part, part, range_end};
use oracle::{library, parts};

/// What labels are made of.
const PIECES: [&str; 38] = [
    "0",
    "1",
    "2",
    "9",
    "10",
    "42",
    "429496729",
    "4294967295",
    "4294967296",
    "4294967297",
    "18446744073709551617",
    "0000000000",
    "/",
    ":",
    "+5",
    "x",
    "\n",
    "a",
    "b",
    "y",
    "z",
    "A",
    "{",
    "`",
    "-",
    "-",
    "+",
    ",",
    " ",
    "\t",
    "\u{a0}",
    "\u{2003}",
    "\u{200b}",
    "é",
    "٣",
    "1",
    "3",
    "",
];

/// What the names of cells are made of.
const CELLS: [&str; 20] = [
    "th",
    "tc",
    "tr",
    "t",
    "r",
    "c",
    "r",
    "c",
    "1",
    "2",
    "10",
    "-",
    "-",
    "+",
    "+3",
    "4294967295",
    "4294967296",
    "0",
    "é",
    "",
];

/// The numbers of positions that stand close together, and two at the end.
const NUMBERS: [u32; 8] = [0, 1, 2, 3, 9, 10, u32::MAX - 2, u32::MAX - 1];

/// No letter, letters, and bytes at both sides of them.
const LETTERS: [u8; 7] = [0, 1, b'`', b'a', b'b', b'z', b'{'];

fn label(rng: &mut Rng) -> String {
    (0..rng.below(6)).map(|_| rng.pick(&PIECES)).collect()
}

/// The position that an answer has.
fn read(part: Part) -> Option<parts::Position> {
    match part {
        Part::Read(position) => Some(position),
        Part::NoDigits | Part::TooLarge => None,
    }
}

/// The answers about a label's start and its end, both of which are given back.
fn compare_label(label: &str) -> (Part, Part) {
    let (start, end) = (part(label), range_end(label));
    let published = (
        parts::parse_verse_part(label),
        parts::parse_verse_range_end(label),
    );
    let plain = (read(start), read(end));
    same("the plain part reading", &label, plain, published);
    let s = label.as_bytes();
    same(
        "parse_verse_part",
        &label,
        library::parse_verse_part(s),
        library::part_words(start),
    );
    same(
        "parse_verse_range_end",
        &label,
        library::parse_verse_range_end(s),
        library::part_words(end),
    );
    (start, end)
}

/// Every label of up to three pieces.
fn every_label() -> u64 {
    let mut labels = 0;
    for one in PIECES {
        for two in PIECES {
            for three in PIECES {
                compare_label(&format!("{one}{two}{three}"));
                labels += 1;
            }
        }
    }
    labels
}

fn cell(rng: &mut Rng) -> String {
    let letters = rng.pick(&CELLS[..3]);
    let rest: String = (0..rng.below(5)).map(|_| rng.pick(&CELLS)).collect();
    format!("{letters}{rest}")
}

fn every_order() -> u64 {
    let positions: Vec<_> = NUMBERS
        .iter()
        .flat_map(|&number| LETTERS.iter().map(move |&letter| (number, letter)))
        .collect();
    let mut pairs = 0;
    for &expected in &positions {
        for &actual in &positions {
            same(
                "is_valid_verse_sequence",
                &(expected, actual),
                library::is_valid_verse_sequence(expected, actual),
                parts::is_valid_verse_sequence(expected, actual),
            );
            pairs += 1;
        }
    }
    pairs
}

/// The position after another, where the published sum stays in 32 bits.
fn next(of: (u32, u8)) -> (u32, u8) {
    let theirs = parts::next_expected(of);
    let whole = (u64::from(theirs.0), theirs.1);
    same("next_expected", &of, library::next_expected(of), whole);
    theirs
}

/// After each number close to 0 and to the last, with each letter's byte that has another after it.
fn every_next() -> u64 {
    let mut positions = 0;
    for number in NUMBERS.into_iter().chain([u32::MAX]) {
        for letter in 0..u8::MAX {
            if (number, letter) == (u32::MAX, 0) {
                // Document 01's whole numbers: here the published sum leaves 32 bits.
                let ours = library::next_expected((number, letter));
                same("next_expected", &(number, letter), ours, (1 << 32, 0));
            } else {
                next((number, letter));
            }
            positions += 1;
        }
    }
    positions
}

fn main() {
    let (mut labels, mut seed) = (1_000_000, 1);
    if let Err(why) = numbers(&mut [("--labels", &mut labels), ("--seed", &mut seed)]) {
        eprintln!("{why}");
        exit(1);
    }
    let pairs = every_order();
    let positions = every_next();
    let small = every_label();
    let mut rng = Rng::new(seed);
    let (mut ordered, mut numbered) = (0u64, 0u64);
    let (mut no_digits, mut too_large) = (0u64, 0u64);
    let mut expected = (1, 0);
    for _ in 0..labels {
        let cell = cell(&mut rng);
        let columns = parts::table_cell_columns(&cell);
        same(
            "table_cell_columns",
            &cell,
            library::table_cell_columns(cell.as_bytes()),
            columns,
        );
        numbered += u64::from(columns.is_some());
        let label = label(&mut rng);
        let (start, end) = compare_label(&label);
        no_digits += u64::from(start == Part::NoDigits);
        too_large += u64::from(start == Part::TooLarge);
        // Sums past 32 bits are where document 01 departs from the published code.
        let Some(start) = read(start).filter(|start| start.0 < u32::MAX) else {
            continue;
        };
        ordered += 1;
        same(
            "is_valid_verse_sequence",
            &(expected, start),
            library::is_valid_verse_sequence(expected, start),
            parts::is_valid_verse_sequence(expected, start),
        );
        let last = read(end).unwrap_or(start);
        if last.0 < u32::MAX - 1 {
            expected = next(last);
        }
    }
    println!(
        "numbers: no difference on {pairs} pairs of positions, {positions} positions and the next ones, {small} labels of up to three pieces, and {labels} labels from seed {seed}, {no_digits} of them without digits, {too_large} too large and {ordered} read and put in order, and on as many names of cells, {numbered} of them with columns"
    );
}
