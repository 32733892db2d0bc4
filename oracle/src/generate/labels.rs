//! Numbers of chapters and verses, mostly in sequence.

use crate::rng::Rng;

/// Labels of which none simply is the next number.
const ODD: [&str; 40] = [
    "0",
    "00",
    "000",
    "05",
    "09a",
    "9z",
    "1z",
    "1-2z",
    "a",
    "abc",
    "-",
    "-3",
    "+3",
    "3-",
    "3--5",
    "3-x",
    "1-+2",
    "2-1",
    "1A",
    "1ab",
    "1a-2b",
    "1.2",
    "1,2",
    "1:2",
    "1–2",
    "٣",
    "３",
    "é5",
    "5é",
    "5-é",
    "\u{200B}5",
    "5\u{200B}",
    "5\u{FEFF}a",
    "4294967296",
    "4294967296a",
    "3-4294967296",
    "99999999999999999999",
    "00000000000000000003",
    "1\"",
    "{",
];

/// Labels at the end of the 32-bit numbers.
const LARGE: [&str; 6] = [
    "4294967295",
    "4294967294",
    "4294967295a",
    "1-4294967295",
    "1-4294967294",
    "4294967294z",
];

/// Beginnings of labels that have no digit there; `/` and `:` stand beside the digits.
const NO_DIGIT: [&str; 28] = [
    "x",
    "abc",
    "v",
    "z",
    "A",
    "+",
    "+5",
    "-",
    "--",
    "-3",
    "/",
    "/9",
    ":",
    ":1",
    ".1",
    ",",
    "(3)",
    "\"1\"",
    "'",
    "{",
    "`",
    "é",
    "٣",
    "３",
    "²",
    "\u{200B}",
    "\u{FEFF}7",
    "|5",
];

/// Numbers that are too large: at the borders of 10 and 11 digits, and such that only one is left of them in 32, 64 or 128 bits.
const TOO_LARGE: [&str; 14] = [
    "4294967296",
    "4294967297",
    "4294967300",
    "5000000000",
    "9999999999",
    "10000000000",
    "42949672950",
    "8589934593",
    "18446744073709551615",
    "18446744073709551616",
    "18446744073709551617",
    "99999999999999999999",
    "340282366920938463463374607431768211457",
    "100000000000000000000000000000000000000000",
];

/// What may stand behind a part that isn't read.
const BEHIND: [&str; 10] = ["", "", "", "", "-3", "a", "-", "-x", "1", "é"];

/// What a document has counted so far.
pub struct Counter {
    /// The chapter that comes next.
    pub chapter: u32,
    /// The verse that comes next, with the byte of its letter or 0.
    verse: u32,
    letter: u8,
}

impl Counter {
    pub fn new(rng: &mut Rng) -> Counter {
        Counter {
            chapter: 1,
            verse: if rng.percent(95) { 1 } else { 9 },
            letter: 0,
        }
    }

    fn start_chapter(&mut self) {
        self.verse = 1;
        self.letter = 0;
    }

    /// A chapter's label and the number in its link, which may differ.
    pub fn chapter(&mut self, rng: &mut Rng) -> (String, u32) {
        let next = self.chapter;
        let number = match rng.below(100) {
            0..72 => next,
            72..79 => next.saturating_sub(1),
            79..84 => next.saturating_add(rng.from_to(1, 3) as u32),
            84..87 => 0,
            87..99 => rng.below(4) as u32,
            _ => u32::MAX - rng.below(3) as u32,
        };
        self.start_chapter();
        self.chapter = number.saturating_add(1);
        (chapter_label(rng, number), number)
    }

    /// A verse's label.
    pub fn verse(&mut self, rng: &mut Rng) -> String {
        if self.letter != 0 && rng.percent(45) {
            return self.lettered(rng);
        }
        if self.letter != 0 {
            self.letter = 0;
            self.verse = self.verse.saturating_add(1);
        }
        let next = self.verse;
        match rng.below(100) {
            0..47 => self.counted(next, String::new()),
            47..55 => self.unread(rng),
            55..59 => {
                let start = self.counted(next, String::new());
                format!("{start}-{}", self.unread(rng))
            }
            59..64 => {
                self.letter = rng.pick(b"aaaabcyz");
                format!("{next}{}", self.letter as char)
            }
            64..68 => {
                let end = next.saturating_add(rng.from_to(0, 3) as u32);
                self.counted(end, format!("{next}-"))
            }
            68..70 => format!("{}-", self.counted(next, String::new())),
            70..72 => {
                self.letter = b'b';
                self.verse = next.saturating_add(1);
                format!("{next}-{}b", self.verse)
            }
            72..75 => format!("{}a", next.saturating_sub(1)),
            75..78 => next.saturating_sub(1).to_string(),
            78..82 => {
                let later = next.saturating_add(rng.from_to(1, 3) as u32);
                self.counted(later, String::new())
            }
            82..86 => self.counted(next, "0".repeat(rng.from_to(1, 2))),
            86..99 => rng.pick(&ODD).to_string(),
            _ if rng.percent(60) => rng.pick(&LARGE).to_string(),
            _ => next.to_string(),
        }
    }

    /// A label of which nothing is read, at its start or behind a `-`: it has no digit there, or its number is too large, at
    /// times by so much that the next one is left of it in 32 or 64 bits.
    fn unread(&self, rng: &mut Rng) -> String {
        let behind = rng.pick(&BEHIND);
        if rng.percent(50) {
            return format!("{}{behind}", rng.pick(&NO_DIGIT));
        }
        let zeros = "0".repeat(rng.weighted(&[6, 1, 0, 1]));
        let number = match rng.below(6) {
            0 => (1 << 32) + u128::from(self.verse),
            1 => (1 << 64) + u128::from(self.verse),
            _ => return format!("{zeros}{}{behind}", rng.pick(&TOO_LARGE)),
        };
        format!("{zeros}{number}{behind}")
    }

    /// The label of a number that counts, after `before`.
    fn counted(&mut self, number: u32, before: String) -> String {
        self.verse = number.saturating_add(1);
        format!("{before}{number}")
    }

    /// The next letter of the same verse, or one that doesn't follow.
    fn lettered(&mut self, rng: &mut Rng) -> String {
        self.letter = match rng.below(10) {
            0 => b'a',
            1 => b'z',
            _ => (self.letter + 1).min(b'z'),
        };
        format!("{}{}", self.verse, self.letter as char)
    }
}

fn chapter_label(rng: &mut Rng, number: u32) -> String {
    match rng.below(100) {
        0..84 => number.to_string(),
        84..89 => format!("0{number}"),
        89..91 => format!("{number}a"),
        91..95 => rng.below(4).to_string(),
        _ => rng.pick(&ODD).to_string(),
    }
}

#[cfg(test)]
mod tests {
    use super::*;
    use crate::unreadable::{Part, part, range_end};

    /// How many of these labels each answer of a reading has: read, no digits, too large.
    fn answers(labels: &[String], reading: fn(&str) -> Part) -> [usize; 3] {
        let mut counts = [0; 3];
        for label in labels {
            counts[match reading(label) {
                Part::Read(_) => 0,
                Part::NoDigits => 1,
                Part::TooLarge => 2,
            }] += 1;
        }
        counts
    }

    #[test]
    fn labels_are_often_not_read() {
        let rng = &mut Rng::new(1);
        let mut counter = Counter::new(rng);
        let labels: Vec<String> = (0..10_000).map(|_| counter.verse(rng)).collect();
        let [_, no_digits, too_large] = answers(&labels, part);
        assert!(
            no_digits > 500 && too_large > 400,
            "{no_digits} {too_large}"
        );
        let is_read = |label: &&String| matches!(part(label), Part::Read(_));
        let read: Vec<String> = labels.iter().filter(is_read).cloned().collect();
        let [_, no_digits, too_large] = answers(&read, range_end);
        assert!(
            no_digits > 300 && too_large > 150,
            "{no_digits} {too_large}"
        );
    }

    #[test]
    fn what_isnt_read_is_of_both_sorts() {
        let rng = &mut Rng::new(2);
        let counter = Counter::new(rng);
        let labels: Vec<String> = (0..1_000).map(|_| counter.unread(rng)).collect();
        let [read, no_digits, too_large] = answers(&labels, part);
        assert_eq!(read, 0);
        assert!(no_digits > 400 && too_large > 400);
        assert!(labels.contains(&"4294967297".to_string()));
    }
}
