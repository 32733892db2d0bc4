use super::*;
use crate::document::kind;
use crate::forms::form_and_numbers;
use crate::fuzz;
use crate::generate::generate;
use crate::parts::{parse_verse_part, parse_verse_range_end};
use crate::refusals::refusal;
use crate::samples::{self, Builder, entry};

fn read(number: u32, letter: u8) -> Part {
    Part::Read((number, letter))
}

/// Labels with the answers about their starts and their ends.
const LABELS: &[(&str, Part, Part)] = &[
    ("", Part::NoDigits, Part::NoDigits),
    ("5", Part::Read((5, 0)), Part::Read((5, 0))),
    ("5a", Part::Read((5, b'a')), Part::Read((5, b'a'))),
    ("5ab", Part::Read((5, b'a')), Part::Read((5, b'a'))),
    ("5A", Part::Read((5, 0)), Part::Read((5, 0))),
    ("3-5b", Part::Read((3, 0)), Part::Read((5, b'b'))),
    ("3-", Part::Read((3, 0)), Part::NoDigits),
    ("3-x", Part::Read((3, 0)), Part::NoDigits),
    ("3-+5", Part::Read((3, 0)), Part::NoDigits),
    ("3-4294967296", Part::Read((3, 0)), Part::TooLarge),
    ("x-5", Part::NoDigits, Part::Read((5, 0))),
    ("-3", Part::NoDigits, Part::Read((3, 0))),
    ("--3", Part::NoDigits, Part::NoDigits),
    ("4294967296-3", Part::TooLarge, Part::Read((3, 0))),
    ("abc", Part::NoDigits, Part::NoDigits),
    ("+5", Part::NoDigits, Part::NoDigits),
    ("٣", Part::NoDigits, Part::NoDigits),
    ("/1", Part::NoDigits, Part::NoDigits),
    (":1", Part::NoDigits, Part::NoDigits),
    ("\u{200B}5", Part::NoDigits, Part::NoDigits),
    ("00000000001", Part::Read((1, 0)), Part::Read((1, 0))),
    ("0004294967296", Part::TooLarge, Part::TooLarge),
    ("4294967296a", Part::TooLarge, Part::TooLarge),
    ("4294967296 1", Part::TooLarge, Part::TooLarge),
    ("99999999999999999999999", Part::TooLarge, Part::TooLarge),
    ("18446744073709551617", Part::TooLarge, Part::TooLarge),
    (" \u{3000}", Part::NoDigits, Part::NoDigits),
    ("\u{2003}5", Part::Read((5, 0)), Part::Read((5, 0))),
    ("3- 5", Part::Read((3, 0)), Part::Read((5, 0))),
];

#[test]
fn parts_have_three_answers() {
    for &(label, start, end) in LABELS {
        assert_eq!((part(label), range_end(label)), (start, end), "{label:?}");
    }
    assert_eq!(part("4294967295"), read(u32::MAX, 0));
    assert_eq!(part("0004294967295z"), read(u32::MAX, b'z'));
    assert_eq!(part(&("0".repeat(5_000) + "7")), read(7, 0));
    assert_eq!(
        part(&("1".to_string() + &"0".repeat(5_000))),
        Part::TooLarge
    );
}

#[test]
fn what_is_read_is_what_the_published_code_reads() {
    let position = |part| match part {
        Part::Read(position) => Some(position),
        Part::NoDigits | Part::TooLarge => None,
    };
    for &(label, ..) in LABELS {
        assert_eq!(position(part(label)), parse_verse_part(label), "{label:?}");
        let end = parse_verse_range_end(label);
        assert_eq!(position(range_end(label)), end, "{label:?}");
    }
}

const TABLE: [crate::document::Entry<'static>; 5] = [
    entry("id", 0, 1),
    entry("c", 1, 0),
    entry("v", 2, 0),
    entry("p", 3, 2),
    entry("nd", 4, 0),
];
const V: u16 = 2;
const P: u16 = 3;
const ND: u16 = 4;
const PAST: u16 = 5;

/// A builder that begins with what nearly every text has, so that nothing is missing.
fn begun() -> Builder {
    let mut builder = Builder::default();
    builder.open(0, "\\id").text(" GEN\n").end();
    builder.leaf(kind::CHAPTER, 1, "\\c 1\n", 1);
    builder
}

/// Code and message of all findings.
fn findings(builder: &mut Builder) -> Vec<(u32, String)> {
    let list = owed_findings(&builder.under(&TABLE));
    list.into_iter().map(|f| (f.code, f.message)).collect()
}

/// The same of verses of these texts in a paragraph.
fn verses(texts: &[&str]) -> Vec<(u32, String)> {
    let mut builder = begun();
    builder.open(P, "\\p");
    for text in texts {
        builder.leaf(kind::VERSE, V, text, 0);
    }
    findings(&mut builder)
}

fn found(list: &[(u32, &str)]) -> Vec<(u32, String)> {
    let owned = |&(code, message): &(u32, &str)| (code, message.to_string());
    list.iter().map(owned).collect()
}

#[test]
fn both_texts_show_the_whole_label() {
    let expected = [
        (35, "verse label x-5 has no number"),
        (35, "verse label 4294967296-3a is too large"),
        (35, "verse label +5 has no number"),
        (35, "verse label 0004294967296 is too large"),
        (15, "verse number `0004294967296` has leading zeros"),
    ];
    let texts = [
        "\\v x-5 y",
        "\\v 4294967296-3a",
        "\\v +5",
        "\\v 0004294967296",
        "\\v 1",
    ];
    assert_eq!(verses(&texts), found(&expected));
}

#[test]
fn trial_item_16_with_its_warning() {
    assert_eq!(verses(&["\\v 1-4294967294", "\\v 4294967295a"]), []);
    assert_eq!(
        verses(&["\\v 4294967296", "\\v 1"]),
        found(&[(35, "verse label 4294967296 is too large")])
    );
}

#[test]
fn an_end_that_isnt_read_gives_none_and_the_start_serves() {
    let texts = ["\\v 1-x", "\\v 2-", "\\v 3-4294967296", "\\v 4-+9", "\\v 5"];
    assert_eq!(verses(&texts), []);
}

#[test]
fn a_start_that_isnt_read_leaves_the_expected_verse() {
    let expected = [
        (35, "verse label x-7 has no number"),
        (35, "verse label 4294967298-7 is too large"),
        (11, "expected verse 2 but found 8"),
    ];
    let texts = ["\\v 1", "\\v x-7", "\\v 4294967298-7", "\\v 8"];
    assert_eq!(verses(&texts), found(&expected));
}

#[test]
fn a_verse_without_a_label_is_missing_its_number_alone() {
    let missing = "\\v is missing its verse number";
    assert_eq!(
        verses(&["\\v", "\\v \u{3000}", "\\v 1"]),
        found(&[(19, missing), (19, missing)])
    );
}

#[test]
fn the_findings_of_one_verse_have_their_order() {
    let mut builder = begun();
    builder.open(ND, "\\nd");
    builder.leaf(kind::VERSE, V, "\\v04294967296", 0);
    builder.leaf(kind::VERSE, V, "\\vx", 0);
    let codes: Vec<u32> = findings(&mut builder).iter().map(|f| f.0).collect();
    assert_eq!(codes, [12, 20, 35, 34, 15, 20, 35, 34]);
}

#[test]
fn a_verse_that_is_passed_over_has_none() {
    let mut builder = begun();
    builder.open(P, "\\p").open(PAST, "\\zz");
    builder.leaf(kind::VERSE, V, "\\v x", 0).end();
    builder.leaf(kind::VERSE, PAST, "\\vz y", 0);
    assert_eq!(
        findings(&mut builder),
        found(&[(35, "verse label y has no number")])
    );
    assert_eq!(
        unreadable(&builder.under(&TABLE)),
        [Unreadable { node: 9, form: 0 }]
    );
}

#[test]
fn chapters_have_none() {
    let mut builder = begun();
    builder.leaf(kind::CHAPTER, 1, "\\c x", 2);
    builder.leaf(kind::CHAPTER, 1, "\\c 4294967296", 3);
    assert_eq!(findings(&mut builder), []);
}

#[test]
fn a_finding_has_eight_words() {
    let document = samples::read("\\id GEN\n\\c 1\n\\p \\v abc \\v 4294967296 ");
    let words: Vec<[u64; 8]> = unreadable(&document)
        .iter()
        .map(|verse| verse.words(&document))
        .collect();
    assert_eq!(words[0], [1, 35, 16, 7, 7, 0, 0, 0]);
    assert_eq!(words[1], [1, 35, 23, 14, 8, 1, 0, 0]);
}

#[test]
fn an_empty_verse_at_the_end_has_no_part_in_it() {
    let mut builder = begun();
    builder.open(P, "\\p");
    for text in ["\\v x", "\\v 3", "\\v y"] {
        builder.leaf(kind::VERSE, V, text, 0);
    }
    let end = builder.source.len() as u32;
    builder.nodes[6] = samples::node(kind::VERSE, V, end, 0, 0);
    let expected = [
        (19, "\\v is missing its verse number"),
        (11, "expected verse 1 but found 3"),
        (35, "verse label y has no number"),
    ];
    assert_eq!(findings(&mut builder), found(&expected));
}

#[test]
fn nodes_of_one_span_have_each_their_own_place() {
    // The second and the third verse have the same span; between them stands a finding of another verse.
    let mut builder = begun();
    builder.open(P, "\\p");
    for text in ["\\v x", "\\v 3", "\\v y"] {
        builder.leaf(kind::VERSE, V, text, 0);
    }
    let last = builder.nodes.len() - 1;
    builder.nodes[last] = builder.nodes[last - 2];
    let expected = [
        (35, "verse label x has no number"),
        (11, "expected verse 1 but found 3"),
        (35, "verse label x has no number"),
    ];
    assert_eq!(findings(&mut builder), found(&expected));
}

/// The accepted documents of some seeds without a sum past 32 bits, each with its published findings.
fn accepted() -> impl Iterator<Item = (Document, Vec<Found>)> {
    let all = (0..3_000).flat_map(|seed| [generate(seed), fuzz::document(seed)]);
    let accepted = all.filter(|document| refusal(document, usize::MAX, usize::MAX).is_none());
    accepted.filter_map(|document| match try_validate(&document).unwrap() {
        Validated::Findings(list) => Some((document, list)),
        Validated::Overflowed => None,
    })
}

#[test]
fn without_code_35_the_list_is_the_published_one() {
    let mut forms = [0; 2];
    for (document, published) in accepted() {
        let mut list = owed_findings(&document);
        for found in list.extract_if(.., |found| found.code == CODE) {
            let (form, ..) = form_and_numbers(found.code, &found.message).unwrap();
            forms[form as usize] += 1;
        }
        assert_eq!(list, published);
    }
    assert!(forms.iter().all(|&count| count > 200), "{forms:?}");
}

/// The place of InvalidVerseSequence for a label that is never in sequence, where the published code finds one.
#[test]
fn the_place_is_that_of_a_verse_out_of_sequence() {
    // Behind a verse 4294967295a the published comparison leaves 32 bits.
    let is_last = |document: &Document| document.source.windows(10).any(|it| it == b"4294967295");
    let mut compared = 0;
    for (mut document, _) in accepted().filter(|(document, _)| !is_last(document)) {
        for Unreadable { node, .. } in unreadable(&document) {
            let (whole, verse) = (document.clone(), document.node(node));
            let start = document.source.len() as u32;
            document.source.extend_from_slice(b"\\v 0");
            let zero = Node {
                marker: u16::MAX,
                start,
                len: 4,
                ..verse
            };
            document.set_node(node, zero);
            let Validated::Findings(list) = try_validate(&document).unwrap() else {
                panic!("a sum leaves 32 bits");
            };
            document = whole;
            let is_this = |f: &Found| (f.code, f.start, f.len) == (11, start, 4);
            let out_of_sequence = list.iter().position(is_this).expect("it is visited");
            assert_eq!(place(&document, node), Ok(out_of_sequence));
            compared += 1;
        }
    }
    assert!(compared > 800, "{compared}");
}
