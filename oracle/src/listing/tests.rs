use super::*;
use crate::document::kind;
use crate::generate::partly_framed;
use crate::published::{Validated, try_validate};
use crate::samples::{self, Builder};

#[test]
fn the_example_of_document_01() {
    let expected = "verdict=checked\nerrors=0\nwarnings=1\ninfos=0\nfindings=1\nseverity=warning\ncode=InvalidVerseSequence\nline=4\ncolumn=1\nmessage=expected verse 1 but found 2\n";
    assert_eq!(listing(&samples::listing()), expected);
}

/// Code, line and column of each finding that is printed for a text.
fn printed_places(document: &Document) -> Vec<(String, usize, usize)> {
    let printed = listing(document);
    let lines: Vec<&str> = printed.lines().skip(5).collect();
    let place = |lines: &[&str]| {
        let value = |at: usize, key| lines[at].strip_prefix(key).unwrap().to_string();
        let number = |at, key| value(at, key).parse().unwrap();
        (value(1, "code="), number(2, "line="), number(3, "column="))
    };
    lines.chunks(5).map(place).collect()
}

/// Line and column of a verse behind this text.
fn verse_behind(text: &str) -> (usize, usize) {
    let mut builder = Builder::default();
    builder.text(text).leaf(kind::VERSE, 0, "\\v 1", 1);
    let places = printed_places(&builder.under(&[samples::entry("v", 2, 0)]));
    let verse = places
        .iter()
        .find(|(code, ..)| code == "VerseOutsideParagraph");
    let (_, line, column) = verse.expect("there is no paragraph");
    (*line, *column)
}

#[test]
fn columns_count_characters() {
    for (text, expected) in [
        ("", (1, 1)),
        ("a ", (1, 3)),
        ("\t", (1, 2)),
        ("λόγος ", (1, 7)),
        ("كلمة ", (1, 6)),
        ("起初", (1, 3)),
        ("😀", (1, 2)),
        (
            "\u{7F}\u{80}\u{7FF}\u{800}\u{FFFF}\u{10000}\u{10FFFF}",
            (1, 8),
        ),
    ] {
        assert_eq!(verse_behind(text), expected, "{text:?}");
    }
}

#[test]
fn each_code_point_counts_one() {
    for (text, expected) in [
        ("λο\u{301}γος ", (1, 8)),
        ("فِي ", (1, 5)),
        ("👩\u{200D}👧", (1, 4)),
        ("\u{FEFF}", (1, 2)),
        ("\u{FEFF}λ", (1, 3)),
        ("a\u{FEFF}", (1, 3)),
    ] {
        assert_eq!(verse_behind(text), expected, "{text:?}");
    }
}

#[test]
fn lines_end_after_byte_10_alone() {
    for (text, expected) in [
        ("λ\n", (2, 1)),
        ("λ\nκα", (2, 3)),
        ("λ\r\n", (2, 1)),
        ("λ\r\nκα", (2, 3)),
        ("λ\r", (1, 3)),
        ("\u{FEFF}\r\nλ\r\n\r\nκ", (4, 2)),
        ("λ\u{B}\u{C}\u{85}\u{2028}\u{2029}", (1, 7)),
    ] {
        assert_eq!(verse_behind(text), expected, "{text:?}");
    }
}

#[test]
fn a_byte_10_stands_on_the_line_that_it_ends() {
    assert_eq!(place("λό\r\nγ", 4), (1, 3));
    assert_eq!(place("λό\r\nγ", 5), (1, 4));
    assert_eq!(place("λό\r\nγ", 6), (2, 1));
    assert_eq!(place("λό\r\nγ", 8), (2, 2));
}

#[test]
fn a_finding_may_stand_at_the_end() {
    for (text, expected) in [("", (1, 1)), ("a\nλό😀", (2, 4)), ("λ\r\n", (2, 1))] {
        let mut builder = Builder::default();
        builder.text(text).leaf(kind::VERSE, 0, "", 0);
        let places = printed_places(&builder.under(&[]));
        let verse = ("MissingVerseNumber".to_string(), expected.0, expected.1);
        assert!(places.contains(&verse), "{places:?}");
    }
}

#[test]
fn a_finding_of_the_document_stands_at_its_start() {
    for text in ["", "λόγος", "\u{FEFF}λόγος", "\n\nλόγος\r\n"] {
        let mut builder = Builder::default();
        let places = printed_places(&builder.text(text).leaf(kind::CHAPTER, 0, "", 1).under(&[]));
        let missing = ("MissingIdMarker".to_string(), 1, 1);
        assert!(places.contains(&missing), "{places:?}");
    }
}

/// What a wrong listing could say: line and column of a place.
type Wrong = fn(&str, usize) -> (usize, usize);

/// The sum of these weights of the characters between the line's start and a place, instead of their number.
fn weighed(source: &str, at: usize, weight: fn(char) -> usize) -> (usize, usize) {
    let stretch = source[..at].rsplit('\n').next().unwrap_or_default();
    let column = stretch.chars().map(weight).sum::<usize>() + 1;
    (place(source, at).0, column)
}

/// Lines that these characters end, instead of byte 10.
fn lined(source: &str, at: usize, ends: fn(char) -> bool) -> (usize, usize) {
    let lines: Vec<&str> = source[..at].split(ends).collect();
    let last = lines[lines.len() - 1];
    (lines.len(), last.chars().count() + 1)
}

fn is_mark(c: char) -> bool {
    matches!(c, '\u{300}'..='\u{36F}' | '\u{5B0}'..='\u{5C7}' | '\u{64B}'..='\u{670}' | '\u{200D}')
}

const WRONG: [(&str, Wrong); 20] = [
    ("bytes", |source, at| weighed(source, at, char::len_utf8)),
    ("units of UTF-16", |source, at| {
        weighed(source, at, char::len_utf16)
    }),
    ("letters with their marks", |source, at| {
        weighed(source, at, |c| usize::from(!is_mark(c)))
    }),
    ("ASCII alone", |source, at| {
        weighed(source, at, |c| usize::from(c.is_ascii()))
    }),
    ("none of two bytes", |source, at| {
        weighed(source, at, |c| usize::from(c.len_utf8() != 2))
    }),
    ("none of three bytes", |source, at| {
        weighed(source, at, |c| usize::from(c.len_utf8() != 3))
    }),
    ("none of four bytes", |source, at| {
        weighed(source, at, |c| usize::from(c.len_utf8() != 4))
    }),
    ("byte 80 as a character", |source, at| {
        weighed(source, at, |c| {
            1 + c.to_string().bytes().filter(|&b| b == 0x80).count()
        })
    }),
    ("byte BF as a character", |source, at| {
        weighed(source, at, |c| {
            1 + c.to_string().bytes().filter(|&b| b == 0xBF).count()
        })
    }),
    ("no character from byte F4 on", |source, at| {
        weighed(source, at, |c| usize::from(c < '\u{100000}'))
    }),
    ("no byte order mark", |source, at| {
        weighed(source, at, |c| usize::from(c != '\u{FEFF}'))
    }),
    ("no byte 13", |source, at| {
        weighed(source, at, |c| usize::from(c != '\r'))
    }),
    ("no controls", |source, at| {
        weighed(source, at, |c| usize::from(!c.is_control()))
    }),
    ("from the text's start", |source, at| {
        (place(source, at).0, source[..at].chars().count() + 1)
    }),
    ("with the byte 10 before the line", |source, at| {
        let (line, column) = place(source, at);
        (line, column + usize::from(line > 1))
    }),
    ("from 0", |source, at| {
        let (line, column) = place(source, at);
        (line, column - 1)
    }),
    ("in eight bits", |source, at| {
        let (line, column) = place(source, at);
        (line, column % 256)
    }),
    ("byte 13 ends a line", |source, at| {
        lined(source, at, |c| matches!(c, '\n' | '\r'))
    }),
    ("separators end a line", |source, at| {
        lined(source, at, |c| {
            matches!(c, '\n' | '\u{85}' | '\u{2028}' | '\u{2029}')
        })
    }),
    ("a line at the text's end", |source, at| {
        let (line, column) = place(source, at);
        if at == source.len() {
            (line + 1, 1)
        } else {
            (line, column)
        }
    }),
];

/// The documents of these seeds in which a wrong listing would print another line or column, for each of the wrong ones.
fn noticed(seeds: std::ops::RangeInclusive<u64>) -> [usize; WRONG.len()] {
    let mut noticed = [0; WRONG.len()];
    for document in seeds.map(partly_framed) {
        if refusal(&document, usize::MAX, usize::MAX).is_some() {
            continue;
        }
        let Validated::Findings(list) = try_validate(&document).unwrap() else {
            continue;
        };
        let source = str::from_utf8(&document.source).unwrap();
        let starts = list.iter().take(MOST_FINDINGS);
        let starts: Vec<usize> = starts.map(|found| found.start as usize).collect();
        for (count, (_, wrong)) in noticed.iter_mut().zip(WRONG) {
            let differs = |&at: &usize| wrong(source, at) != place(source, at);
            *count += usize::from(starts.iter().any(differs));
        }
    }
    noticed
}

/// `compare_listing` takes these documents, so that each wrong listing would make it fail.
#[test]
fn wrong_columns_are_noticed() {
    for ((name, _), documents) in WRONG.iter().zip(noticed(1..=1_000)) {
        assert!(documents >= 5, "{name}: {documents} documents");
    }
}
