//! The books of a Bible with their chapters and verses, and generated text in them.

use super::writer::Manner::{self, Gospel, Lists, Mixed, Poetry, Prose};
use super::writer::{Style, Writer};
use crate::document::Document;
use crate::refusals::MOST_NODES;

/// A book: its code, how many chapters and verses it has, and how it is set.
pub struct Plan {
    pub code: &'static str,
    pub chapters: usize,
    pub verses: usize,
    pub manner: Manner,
}

const fn plan(code: &'static str, chapters: usize, verses: usize, manner: Manner) -> Plan {
    Plan {
        code,
        chapters,
        verses,
        manner,
    }
}

/// So many of the books, from the first on, have Hebrew words in their attributes, and the others Greek ones.
const HEBREW_BOOKS: usize = 39;

pub const BOOKS: [Plan; 66] = [
    plan("GEN", 50, 1_533, Prose),
    plan("EXO", 40, 1_213, Prose),
    plan("LEV", 27, 859, Prose),
    plan("NUM", 36, 1_288, Lists),
    plan("DEU", 34, 959, Prose),
    plan("JOS", 24, 658, Lists),
    plan("JDG", 21, 618, Prose),
    plan("RUT", 4, 85, Prose),
    plan("1SA", 31, 810, Prose),
    plan("2SA", 24, 695, Prose),
    plan("1KI", 22, 816, Prose),
    plan("2KI", 25, 719, Prose),
    plan("1CH", 29, 942, Lists),
    plan("2CH", 36, 822, Prose),
    plan("EZR", 10, 280, Lists),
    plan("NEH", 13, 406, Lists),
    plan("EST", 10, 167, Prose),
    plan("JOB", 42, 1_070, Poetry),
    plan("PSA", 150, 2_461, Poetry),
    plan("PRO", 31, 915, Poetry),
    plan("ECC", 12, 222, Mixed),
    plan("SNG", 8, 117, Poetry),
    plan("ISA", 66, 1_292, Mixed),
    plan("JER", 52, 1_364, Mixed),
    plan("LAM", 5, 154, Poetry),
    plan("EZK", 48, 1_273, Prose),
    plan("DAN", 12, 357, Prose),
    plan("HOS", 14, 197, Mixed),
    plan("JOL", 3, 73, Mixed),
    plan("AMO", 9, 146, Mixed),
    plan("OBA", 1, 21, Mixed),
    plan("JON", 4, 48, Prose),
    plan("MIC", 7, 105, Mixed),
    plan("NAM", 3, 47, Mixed),
    plan("HAB", 3, 56, Mixed),
    plan("ZEP", 3, 53, Mixed),
    plan("HAG", 2, 38, Prose),
    plan("ZEC", 14, 211, Mixed),
    plan("MAL", 4, 55, Prose),
    plan("MAT", 28, 1_071, Gospel),
    plan("MRK", 16, 678, Gospel),
    plan("LUK", 24, 1_151, Gospel),
    plan("JHN", 21, 879, Gospel),
    plan("ACT", 28, 1_007, Prose),
    plan("ROM", 16, 433, Prose),
    plan("1CO", 16, 437, Prose),
    plan("2CO", 13, 257, Prose),
    plan("GAL", 6, 149, Prose),
    plan("EPH", 6, 155, Prose),
    plan("PHP", 4, 104, Prose),
    plan("COL", 4, 95, Prose),
    plan("1TH", 5, 89, Prose),
    plan("2TH", 3, 47, Prose),
    plan("1TI", 6, 113, Prose),
    plan("2TI", 4, 83, Prose),
    plan("TIT", 3, 46, Prose),
    plan("PHM", 1, 25, Prose),
    plan("HEB", 13, 303, Prose),
    plan("JAS", 5, 108, Prose),
    plan("1PE", 5, 105, Prose),
    plan("2PE", 3, 61, Prose),
    plan("1JN", 5, 105, Prose),
    plan("2JN", 1, 13, Prose),
    plan("3JN", 1, 14, Prose),
    plan("JUD", 1, 25, Prose),
    plan("REV", 22, 404, Prose),
];

/// How many verses a chapter has, from 1: the book's are spread evenly.
fn verses_in(plan: &Plan, chapter: usize) -> usize {
    plan.verses * chapter / plan.chapters - plan.verses * (chapter - 1) / plan.chapters
}

fn writer(book: usize, style: Style) -> Writer {
    let hebrew = book < HEBREW_BOOKS;
    Writer::new(style, BOOKS[book].manner, hebrew, book as u64)
}

/// A book of the list, by its place in it, cut at chapters where it has more nodes than number 4 lets pass. Each volume counts
/// its chapters from 1, since a first chapter of another number is a finding.
pub fn volumes(book: usize, style: Style) -> Vec<Document> {
    let plan = &BOOKS[book];
    let mut writer = writer(book, style);
    let mut list = Vec::new();
    let mut number = 0;
    writer.front(plan.code);
    for chapter in 1..=plan.chapters {
        let (before, verses) = (writer.mark(), verses_in(plan, chapter));
        number += 1;
        writer.chapter(number, verses);
        if !writer.fits(MOST_NODES) {
            writer.back(before);
            list.push(writer.finish());
            number = 1;
            writer.front(plan.code);
            writer.chapter(number, verses);
        }
    }
    list.push(writer.finish());
    list
}

/// The book of a code, whole.
pub fn book(code: &str, style: Style) -> Document {
    let place = BOOKS.iter().position(|plan| plan.code == code);
    let mut list = volumes(place.expect("a code of the list"), style);
    assert_eq!(list.len(), 1, "{code} has several volumes");
    list.remove(0)
}

/// All books, one after another.
pub fn bible(style: Style) -> Vec<Document> {
    (0..BOOKS.len())
        .flat_map(|book| volumes(book, style))
        .collect()
}

#[cfg(test)]
mod tests {
    use super::*;
    use crate::books::tests::findings;
    use crate::document::kind;
    use crate::parts;

    fn count(documents: &[Document], kind: u8) -> usize {
        let nodes = documents.iter().flat_map(Document::nodes);
        nodes.filter(|node| node.kind == kind).count()
    }

    #[test]
    fn the_books_stand_in_the_published_order() {
        for (place, plan) in BOOKS.iter().enumerate() {
            assert_eq!(parts::book(plan.code), Some(place as u8));
        }
    }

    #[test]
    fn chapters_and_verses_are_those_of_the_list() {
        let chapters = BOOKS.iter().map(|plan| plan.chapters).sum::<usize>();
        let verses = BOOKS.iter().map(|plan| plan.verses).sum::<usize>();
        assert_eq!((chapters, verses), (1_189, 31_102));
        let documents = bible(Style::Plain);
        assert_eq!(documents.len(), 66);
        assert_eq!(count(&documents, kind::CHAPTER), chapters);
        assert_eq!(count(&documents, kind::VERSE), verses);
    }

    #[test]
    fn a_clean_bible_has_no_finding() {
        for document in bible(Style::Plain) {
            assert_eq!(findings(&document), 0);
        }
    }

    #[test]
    fn a_clean_bible_has_the_size_of_a_printed_one() {
        let bytes: usize = bible(Style::Plain)
            .iter()
            .map(|document| document.source.len())
            .sum();
        assert!((4_500_000..6_500_000).contains(&bytes), "{bytes}");
    }

    #[test]
    fn a_bible_word_by_word_has_no_finding_either() {
        let documents = bible(Style::WordLevel);
        assert_eq!(count(&documents, kind::VERSE), 31_102);
        assert!(count(&documents, kind::ATTRIBUTE) > 600_000);
        for document in &documents {
            assert_eq!(findings(document), 0);
        }
    }
}
