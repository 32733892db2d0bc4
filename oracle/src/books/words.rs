//! The words of generated books.

use crate::rng::Rng;

/// Common words stand here several times, so that lengths and apostrophes are about as in a printed Bible.
const WORDS: &str = "the the the the the the the the the the the the the and and and and and and and and and of of of of of \
    of of to to to to to in in in in a a a he he he you you you that that that his his his for for for they they is is was \
    was with with not not it it will will all all them them I I him from be said said shall shall have have but but your \
    your my me their are out up when who one on her by as were had this there came at so go upon into before then people \
    king house children land man men son sons day God Israel Judah Jerusalem David Moses hand heart father brothers servant \
    servants heaven earth city words name years therefore because against among commanded covenant mountain water \
    waters bread priests prophet spirit glory offering righteousness wilderness tabernacle nations also went sent brought \
    give gave known know spoke speak answered saying hear heard Lord’s king’s don’t father’s";

const HEBREW: [&str; 8] = ["אלהים", "ארץ", "ברא", "ראשׁית", "מים", "עם", "מלך", "דבר"];

const GREEK: [&str; 8] = [
    "θεός",
    "λόγος",
    "ἀρχή",
    "κύριος",
    "ἄνθρωπος",
    "πνεῦμα",
    "οὐρανός",
    "καρδία",
];

/// A word with what stands before and after it.
pub struct Word {
    pub before: &'static str,
    pub word: &'static str,
    pub after: &'static str,
}

/// Picks words; the same ones for the same seed.
pub struct Words {
    pub rng: Rng,
    list: Vec<&'static str>,
}

impl Words {
    pub fn new(seed: u64) -> Words {
        Words {
            rng: Rng::new(seed),
            list: WORDS.split(' ').collect(),
        }
    }

    fn after(&mut self, is_last: bool, quoted: bool) -> &'static str {
        match (is_last, quoted, self.rng.below(40)) {
            (true, true, 0..20) => ".”",
            (true, true, _) => "?”",
            (true, false, _) => ".",
            (_, _, 0..4) => ", ",
            (_, _, 4) => "; ",
            (_, _, 5) => ". ",
            _ => " ",
        }
    }

    /// So many words that end with a full stop; in one of three a speech begins, and mostly ends.
    pub fn sentence(&mut self, count: usize) -> Vec<Word> {
        let speech = self.rng.one_in(3);
        let begins = self.rng.below(count);
        let quoted = speech && self.rng.percent(80);
        (0..count)
            .map(|place| Word {
                before: if speech && place == begins { "“" } else { "" },
                word: self.rng.pick(&self.list),
                after: self.after(place + 1 == count, quoted),
            })
            .collect()
    }

    /// So many words with blanks between them.
    pub fn phrase(&mut self, count: usize) -> Vec<Word> {
        (1..=count)
            .map(|place| Word {
                before: "",
                word: self.rng.pick(&self.list),
                after: if place < count { " " } else { "" },
            })
            .collect()
    }

    /// So many words of a sentence as plain text.
    pub fn plain(&mut self, count: usize) -> String {
        let words = self.sentence(count);
        let texts = words
            .iter()
            .flat_map(|word| [word.before, word.word, word.after]);
        texts.collect()
    }

    /// What stands in a word's attributes.
    pub fn attributes(&mut self, hebrew: bool) -> String {
        let number = self.rng.from_to(1, if hebrew { 8_674 } else { 5_624 });
        let (lemma, letter) = match hebrew {
            true => (self.rng.pick(&HEBREW), 'H'),
            false => (self.rng.pick(&GREEK), 'G'),
        };
        format!("|lemma=\"{lemma}\" strong=\"{letter}{number:04}\"")
    }
}

#[cfg(test)]
mod tests {
    use super::*;

    #[test]
    fn twenty_five_words_take_about_135_bytes() {
        let mut words = Words::new(1);
        let bytes: usize = (0..1_000).map(|_| words.plain(25).len()).sum();
        assert!((130_000..140_000).contains(&bytes), "{bytes}");
    }

    #[test]
    fn some_characters_are_typographic() {
        let mut words = Words::new(1);
        let text: String = (0..1_000).map(|_| words.plain(25)).collect();
        for mark in ['’', '“', '”'] {
            let count = text.matches(mark).count();
            assert!((200..900).contains(&count), "{mark} {count}");
        }
    }
}
