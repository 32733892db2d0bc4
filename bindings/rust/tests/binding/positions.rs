//! Lines and columns of findings.

use harkoxin::{Code, Finding, Node, NodeKind, Position, Report, Table, Tape, check};

use crate::common::{Document, Numbers, example_names};

fn position(line: usize, column: usize, byte_column: usize) -> Position {
    Position {
        line,
        column,
        byte_column,
    }
}

/// A report on verses of these starts and lengths, each of which stands outside a paragraph and without its number.
fn verses(source: &str, spans: &[(usize, usize)]) -> Report {
    let root = Node::new(NodeKind::Root, 0, 0, 0, 1 + spans.len() as u32);
    let verse =
        |&(start, len): &(usize, usize)| Node::new(NodeKind::Verse, 0, start as u32, len as u32, 0);
    let nodes: Vec<Node> = [root].into_iter().chain(spans.iter().map(verse)).collect();
    check(&Table::from(""), source, &Tape::from_nodes(&nodes)).unwrap()
}

fn of_code(report: &Report, code: Code) -> Finding<'_> {
    let found = report.findings().find(|finding| finding.code() == code);
    found.expect("the document has this finding")
}

/// The position of a verse behind this text.
fn behind(text: &str) -> Position {
    let source = format!("{text}\\v");
    let report = verses(&source, &[(text.len(), 2)]);
    of_code(&report, Code::MissingVerseNumber).position(&source)
}

#[test]
fn the_listing_has_its_position() {
    let document = Document::listing();
    let report = document.check().unwrap();
    assert_eq!(report.positions(&document.source), [position(4, 1, 1)]);
    let finding = report.get(0).unwrap();
    assert_eq!(finding.position(&document.source), position(4, 1, 1));
}

#[test]
fn greek_is_counted_by_characters_and_by_bytes() {
    assert_eq!(behind("λόγος "), position(1, 7, 12));
    assert_eq!(behind("Ἐν ἀρχῇ\nἦν ὁ λόγος "), position(2, 12, 22));
}

#[test]
fn arabic_is_counted_by_characters_and_by_bytes() {
    assert_eq!(behind("كلمة "), position(1, 6, 10));
    assert_eq!(behind("سفر\nفي البدء "), position(2, 10, 17));
}

#[test]
fn combining_marks_count_one_each() {
    assert_eq!(behind("e\u{301}"), position(1, 3, 4));
    assert_eq!(behind("α\u{313}\u{342}\u{345} "), position(1, 6, 10));
    assert_eq!(behind("ف\u{650}ي"), position(1, 4, 7));
    // The same letter as one code point.
    assert_eq!(behind("é"), position(1, 2, 3));
}

#[test]
fn emoji_count_by_code_points() {
    assert_eq!(behind("😀"), position(1, 2, 5));
    assert_eq!(behind("a😀😀 "), position(1, 5, 11));
    assert_eq!(behind("👩\u{200D}👧"), position(1, 4, 12));
    assert_eq!(behind("\u{10FFFF}"), position(1, 2, 5));
}

#[test]
fn lines_end_after_byte_10_alone() {
    assert_eq!(behind("λ\r\n"), position(2, 1, 1));
    assert_eq!(behind("λ\r\nκα"), position(2, 3, 5));
    assert_eq!(behind("\r\n\r\n😀"), position(3, 2, 5));
    assert_eq!(behind("λ\r"), position(1, 3, 4));
    assert_eq!(behind("\n\n\n"), position(4, 1, 1));
    assert_eq!(
        behind("\u{B}\u{C}\u{85}\u{2028}\u{2029}"),
        position(1, 6, 11)
    );
}

#[test]
fn a_byte_order_mark_counts_one() {
    assert_eq!(behind("\u{FEFF}"), position(1, 2, 4));
    assert_eq!(behind("\u{FEFF}λ"), position(1, 3, 6));
    assert_eq!(behind("\u{FEFF}\n"), position(2, 1, 1));
}

#[test]
fn a_finding_about_the_document_stands_at_its_start() {
    for text in ["", "λόγος ", "\u{FEFF}", "\r\n\r\n"] {
        let source = format!("{text}\\v");
        let report = verses(&source, &[(text.len(), 2)]);
        let missing = of_code(&report, Code::MissingIdMarker);
        assert_eq!(missing.position(&source), position(1, 1, 1));
    }
}

#[test]
fn a_finding_may_stand_at_the_end() {
    for (source, expected) in [
        ("", position(1, 1, 1)),
        ("λόγος", position(1, 6, 11)),
        ("λόγος\r\n", position(2, 1, 1)),
    ] {
        let report = verses(source, &[(source.len(), 0)]);
        let found = of_code(&report, Code::MissingVerseNumber);
        assert_eq!(found.position(source), expected);
    }
}

#[test]
fn another_source_gives_a_position_too() {
    let report = verses("λόγος\n\\v", &[(11, 2)]);
    let found = of_code(&report, Code::MissingVerseNumber);
    assert_eq!(found.position("λόγος\n\\v"), position(2, 1, 1));
    // Past the end.
    assert_eq!(found.position(""), position(1, 1, 1));
    assert_eq!(found.position("a\nλό"), position(2, 3, 5));
    // Inside a character: at the third byte of 😀.
    assert_eq!(found.position("123456789😀"), position(1, 11, 12));
    // No UTF-8.
    assert_eq!(found.position([0xFF; 20]), position(1, 12, 12));
    assert_eq!(found.position([0x80; 20]), position(1, 1, 12));
    for source in ["", "a\nλό", "123456789😀"] {
        let each: Vec<Position> = report.findings().map(|f| f.position(source)).collect();
        assert_eq!(report.positions(source), each);
    }
}

#[test]
fn positions_are_those_of_each_finding() {
    let mut count = 0;
    for name in example_names() {
        let document = Document::example(&name);
        let Ok(report) = document.check() else {
            continue;
        };
        let positions = report.positions(&document.source);
        assert_eq!(positions.len(), report.findings().len());
        let findings = report.findings().zip(positions);
        for (finding, position) in findings.step_by(7) {
            assert_eq!(position, finding.position(&document.source), "{name}");
            count += 1;
        }
    }
    assert!(count > 100, "{count}");
}

/// The position of a place, character by character.
fn counted(source: &str, place: usize) -> Position {
    let mut position = position(1, 1, 1);
    for (at, character) in source.char_indices() {
        if at >= place {
            break;
        }
        if character == '\n' {
            position = self::position(position.line + 1, 1, 1);
        } else {
            position.column += 1;
            position.byte_column += character.len_utf8();
        }
    }
    position
}

const CHARACTERS: [char; 16] = [
    'a',
    ' ',
    '\\',
    '\n',
    '\r',
    '\u{7F}',
    '\u{80}',
    'λ',
    '\u{301}',
    'ل',
    '\u{7FF}',
    '\u{800}',
    '\u{FEFF}',
    '\u{10000}',
    '😀',
    '\u{10FFFF}',
];

#[test]
fn positions_of_generated_texts_are_counted() {
    let numbers = &mut Numbers::from_seed(6);
    let (mut wide, mut later) = (0, 0);
    for _ in 0..500 {
        let len = numbers.below(60);
        let source: String = (0..len)
            .map(|_| CHARACTERS[numbers.below(CHARACTERS.len())])
            .collect();
        let mut places: Vec<usize> = source.char_indices().map(|(at, _)| at).collect();
        places.push(source.len());
        // In any order, some of them twice.
        let mut place = || places[numbers.below(places.len())];
        let spans: Vec<(usize, usize)> = (0..12).map(|_| (place(), 0)).collect();
        let report = verses(&source, &spans);
        let positions = report.positions(&source);
        for (finding, position) in report.findings().zip(positions) {
            let expected = counted(&source, finding.span().start);
            assert_eq!(position, expected, "{source:?}");
            assert_eq!(finding.position(&source), expected, "{source:?}");
            wide += usize::from(position.column < position.byte_column);
            later += usize::from(position.line > 1);
        }
    }
    assert!(wide > 1_000 && later > 1_000, "{wide} {later}");
}

#[test]
fn positions_are_shown_as_line_and_column() {
    assert_eq!(position(12, 7, 9).to_string(), "12:7");
    assert_eq!(
        format!("{:>6}|{:<6}|", position(4, 1, 1), position(4, 10, 1)),
        "   4:1|4:10  |"
    );
}
