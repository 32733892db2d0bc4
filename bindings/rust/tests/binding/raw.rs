//! The functions over plain slices: every element that they leave alone, and lists of any length.

use harkoxin::Code;
use harkoxin::raw::{self, CUT, DONE, FINDING_WORDS, MessageRequest, OpenStart, REFUSED};

use crate::common::{Document, Lists, example_names};

/// A word that no answer holds.
const ANY: u64 = 0xA5A5_A5A5_A5A5_A5A5;

/// A record that no check leaves.
const OPEN: OpenStart = OpenStart {
    node: 7,
    base_len: 5,
};

/// The one finding of the listing's document, whose text has 28 bytes.
const FINDING: [u64; FINDING_WORDS] = [1, 11, 16, 5, 6, 0, 1, 0];

/// Lists of these lengths.
fn lists(seen: usize, opens: usize, list: usize, out: usize) -> Lists {
    Lists {
        seen: vec![7; seen],
        opens: vec![OPEN; opens],
        list: vec![ANY; list],
        out: vec![ANY; out],
    }
}

/// The findings of a document, as words.
fn findings(document: &Document) -> Vec<u64> {
    let n = document.node_count();
    let mut lent = lists(n, n, 20_000, raw::CHECK_WORDS);
    document.raw_check(&mut lent);
    assert_eq!(lent.out[0], DONE);
    lent.list.truncate(FINDING_WORDS * lent.out[4] as usize);
    lent.list
}

/// The text of each finding, each by a call of its own.
fn texts(document: &Document, list: &[u64]) -> Vec<Vec<u8>> {
    let one = |words: &[u64; FINDING_WORDS]| {
        let mut text = vec![b'#'; 70_000];
        let mut out = [ANY; raw::MESSAGE_WORDS];
        document.raw_message(MessageRequest::from(words), &mut text, &mut out);
        assert_eq!(out[..3], [DONE, 0, 0]);
        text.truncate(out[3] as usize);
        text
    };
    list.as_chunks().0.iter().map(one).collect()
}

#[test]
fn a_list_is_cut_where_it_ends() {
    let document = Document::example("each-code");
    let n = document.node_count();
    let whole = findings(&document);
    for room in [0, 7, 8, 100, 239, 240, 250] {
        let mut lent = lists(n + 3, n + 3, room, raw::CHECK_WORDS + 2);
        document.raw_check(&mut lent);
        let written = (room / 8).min(30);
        let verdict = if written < 30 { CUT } else { DONE };
        let answer = [verdict, 0, 0, 30, written as u64, 3, 19, 10, 1, ANY, ANY];
        assert_eq!(lent.out, answer, "room for {room} words");
        let (held, rest) = lent.list.split_at(8 * written);
        assert_eq!(held, &whole[..8 * written]);
        assert!(rest.iter().all(|&word| word == ANY));
        assert_eq!(lent.seen, [vec![0; n], vec![7; 3]].concat());
        let cleared = vec![OpenStart::default(); n];
        assert_eq!(lent.opens, [cleared, vec![OPEN; 3]].concat());
    }
}

#[test]
fn working_lists_that_are_too_short() {
    let document = Document::listing();
    for (seen, opens) in [(8, 9), (9, 8), (9, 0), (0, 9), (0, 0)] {
        let mut lent = lists(seen, opens, 8, raw::CHECK_WORDS);
        let mut expected = lent.clone();
        expected.out = vec![REFUSED, 10, 9, 0, 0, 0, 0, 0, 0];
        document.raw_check(&mut lent);
        assert_eq!(lent, expected);
    }
    let mut lent = lists(9, 9, 8, raw::CHECK_WORDS);
    document.raw_check(&mut lent);
    assert_eq!((lent.out[0], lent.list), (DONE, FINDING.to_vec()));
}

#[test]
fn answers_are_written_as_far_as_there_is_room() {
    let document = Document::listing();
    let whole = [DONE, 0, 0, 1, 1, 1, 0, 1, 0];
    for room in 0..=raw::CHECK_WORDS {
        let mut lent = lists(9, 9, 8, room);
        document.raw_check(&mut lent);
        assert_eq!(lent.out, whole[..room]);
        assert_eq!(lent.list, FINDING);
    }
    let Document {
        table,
        source,
        tape,
    } = &document;
    for room in 0..=raw::MESSAGE_WORDS {
        let (mut text, mut out) = ([0; 28], vec![ANY; room]);
        document.raw_message(MessageRequest::from(&FINDING), &mut text, &mut out);
        assert_eq!(out, [DONE, 0, 0, 28][..room]);
        assert_eq!(&text, b"expected verse 1 but found 2");
    }
    for room in 0..=raw::MESSAGES_WORDS {
        let (mut ends, mut text, mut out) = ([0; 1], [0; 28], vec![ANY; room]);
        raw::messages(
            table, source, tape, &FINDING, &mut ends, &mut text, &mut out,
        );
        assert_eq!(out, [DONE, 0, 0, 1, 28][..room]);
        assert_eq!(&text, b"expected verse 1 but found 2");
    }
}

#[test]
fn texts_together_are_the_texts_by_themselves() {
    let mut written = 0;
    for name in example_names() {
        let document = Document::example(&name);
        // As many findings as `findings` has room for.
        if !document.check().is_ok_and(|report| report.total() <= 2_500) {
            continue;
        }
        let list = findings(&document);
        let alone = texts(&document, &list);
        let mut ends = vec![ANY; alone.len()];
        let mut text = vec![b'#'; 200_000];
        let answer = document.raw_messages(&list, &mut ends, &mut text);
        let used = alone.concat().len();
        assert_eq!(answer, [DONE, 0, 0, alone.len() as u64, used as u64]);
        let mut start = 0;
        for (alone, &end) in alone.iter().zip(&ends) {
            assert_eq!(&text[start..end as usize], alone, "{name}");
            start = end as usize;
        }
        assert!(text[used..].iter().all(|&byte| byte == b'#'));
        written += alone.len();
    }
    assert!(written > 1_000);
}

#[test]
fn texts_stop_where_the_room_ends() {
    let document = Document::example("each-code");
    let list = findings(&document);
    let alone = texts(&document, &list);
    let all: Vec<u8> = alone.concat();
    for room in 0..all.len() {
        let (mut ends, mut text) = ([ANY; 30], vec![b'#'; room]);
        let answer = document.raw_messages(&list, &mut ends, &mut text);
        let written = ends.iter().take_while(|&&end| end != ANY).count();
        let used = alone[..written].concat().len();
        let next = alone[written].len();
        assert_eq!(answer, [CUT, 13, next as u64, written as u64, used as u64]);
        assert!(used <= room && room < used + next);
        assert_eq!(text[..used], all[..used]);
        assert!(text[used..].iter().all(|&byte| byte == b'#'));
        assert!(ends[written..].iter().all(|&end| end == ANY));
    }
}

#[test]
fn texts_without_room_for_their_ends_are_written() {
    let document = Document::example("each-code");
    let list = findings(&document);
    let alone = texts(&document, &list);
    let (mut ends, mut text) = ([ANY; 2], vec![0; 4_000]);
    let answer = document.raw_messages(&list, &mut ends, &mut text);
    let all = alone.concat();
    assert_eq!(answer, [DONE, 0, 0, 30, all.len() as u64]);
    assert_eq!(text[..all.len()], all);
    let second = alone[0].len() + alone[1].len();
    assert_eq!(ends, [alone[0].len() as u64, second as u64]);
}

#[test]
fn texts_stop_at_a_finding_that_has_none() {
    let unknown = [0, 99, 0, 0, 0, 0, 0, 0];
    let list = [FINDING, unknown, FINDING].concat();
    let (mut ends, mut text) = ([ANY; 3], [b'#'; 100]);
    let answer = Document::listing().raw_messages(&list, &mut ends, &mut text);
    assert_eq!(answer, [CUT, 12, 0, 1, 28]);
    assert_eq!(ends, [28, ANY, ANY]);
    assert!(text[28..].iter().all(|&byte| byte == b'#'));
}

#[test]
fn texts_of_a_list_with_a_rest() {
    let list = [&FINDING[..], &FINDING[..7]].concat();
    let (mut ends, mut text) = ([ANY; 2], [b'#'; 100]);
    let answer = Document::listing().raw_messages(&list, &mut ends, &mut text);
    assert_eq!(answer, [DONE, 0, 0, 1, 28]);
    assert_eq!(ends, [28, ANY]);
}

#[test]
fn texts_of_a_refused_document() {
    let mut document = Document::listing();
    document.source[16] = 0xFF;
    let (mut ends, mut text, mut out) = ([ANY; 1], [b'#'; 100], [ANY; 4]);
    let answer = document.raw_messages(&FINDING, &mut ends, &mut text);
    assert_eq!(answer, [REFUSED, 3, 16, 0, 0]);
    document.raw_message(MessageRequest::from(&FINDING), &mut text, &mut out);
    assert_eq!(out, [REFUSED, 3, 16, 0]);
    assert_eq!((ends, text), ([ANY], [b'#'; 100]));
}

#[test]
fn one_text_that_is_refused() {
    let document = Document::listing();
    let request = MessageRequest::from(&FINDING);
    let letter = MessageRequest {
        second: 128,
        ..request
    };
    let off_tape = MessageRequest { node: 9, ..request };
    let other_form = MessageRequest { form: 1, ..request };
    for (request, room, answer) in [
        (request, 27, [REFUSED, 13, 28, 0]),
        (letter, 28, [REFUSED, 12, 0, 0]),
        (off_tape, 28, [REFUSED, 12, 0, 0]),
        (other_form, 28, [REFUSED, 12, 0, 0]),
    ] {
        let (mut text, mut out) = (vec![b'#'; room], [ANY; raw::MESSAGE_WORDS]);
        document.raw_message(request, &mut text, &mut out);
        assert_eq!(out, answer);
        assert_eq!(text, vec![b'#'; room]);
    }
}

#[test]
fn tallies_and_their_refusals() {
    let list = findings(&Document::example("each-code"));
    let mut counts = [ANY; Code::COUNT + 1];
    let mut out = [ANY; raw::TALLY_WORDS];
    raw::tally(&list, &mut counts, &mut out);
    assert_eq!(out, [DONE, 0, 0]);
    assert_eq!(counts[..Code::COUNT].iter().sum::<u64>(), 30);
    assert_eq!(counts[Code::COUNT], ANY);
    let mut few = [ANY; 6];
    raw::tally(&list, &mut few, &mut []);
    assert_eq!(few, counts[..6]);

    let mut bad_code = list.clone();
    bad_code[8 * 5 + 1] = Code::COUNT as u64;
    let mut bad_severity = list.clone();
    bad_severity[8 * 29] = 3;
    for (list, place) in [
        (&bad_code[..], 5),
        (&bad_severity[..], 29),
        (&list[..17], 2),
    ] {
        let mut counts = [ANY; Code::COUNT];
        raw::tally(list, &mut counts, &mut out);
        assert_eq!((out, counts), ([REFUSED, 11, place], [ANY; Code::COUNT]));
    }
}

#[test]
fn marks_and_their_refusals() {
    for (counts, answer) in [
        ([0, 1, 1], [DONE, 0, 0, 750, 9_250]),
        ([5, 0, 1], [DONE, 0, 0, 12_500, 0]),
        ([1_000_001, 0, 0], [REFUSED, 14, 0, 0, 0]),
        ([1_000_000, 0, 0], [REFUSED, 15, 0, 0, 0]),
    ] {
        let [errors, warnings, verses] = counts;
        for room in 0..raw::MARK_WORDS + 3 {
            let mut out = vec![ANY; room];
            raw::mark(errors, warnings, verses, &mut out);
            let words = answer.iter().chain(&[ANY; 3]).take(room);
            assert!(out.iter().eq(words), "{counts:?}: {out:?}");
        }
    }
}

/// A check, and then the texts of the findings that it wrote: what a report gives by one call.
fn in_two_calls(document: &Document, lent: &mut Lists, ends: &mut [u64], text: &mut [u8]) {
    let out = std::mem::replace(&mut lent.out, vec![ANY; raw::CHECK_WORDS]);
    document.raw_check(lent);
    let check = std::mem::replace(&mut lent.out, out);
    let messages = if check[0] == REFUSED {
        [REFUSED, check[1], check[2], 0, 0]
    } else {
        let held = FINDING_WORDS * check[4] as usize;
        document.raw_messages(&lent.list[..held], ends, text)
    };
    let words = check.iter().chain(&messages);
    for (slot, word) in lent.out.iter_mut().zip(words) {
        *slot = *word;
    }
}

#[test]
fn a_report_is_a_check_and_the_texts_of_what_it_wrote() {
    let mut reported = 0;
    for name in example_names() {
        let document = Document::example(&name);
        let n = document.node_count();
        for (list, ends, bytes, out) in [
            (20_000, 2_500, 200_000, 14),
            (20_000, 2_500, 500, 16),
            (85, 9, 300, 14),
            (20_000, 3, 200_000, 13),
            (0, 0, 0, 9),
            (8, 1, 0, 3),
        ] {
            for (seen, opens) in [(n + 2, n + 2), (n, n), (n, n.saturating_sub(1))] {
                let mut lent = lists(seen, opens, list, out);
                let mut alone = lent.clone();
                let (mut ends, mut text) = (vec![ANY; ends], vec![b'#'; bytes]);
                let (mut ends_alone, mut text_alone) = (ends.clone(), text.clone());
                document.raw_report(&mut lent, &mut ends, &mut text);
                in_two_calls(&document, &mut alone, &mut ends_alone, &mut text_alone);
                assert_eq!(
                    (lent, ends, text),
                    (alone, ends_alone, text_alone),
                    "{name}"
                );
                reported += 1;
            }
        }
    }
    assert!(reported > 300);
}

#[test]
fn a_report_of_the_listing() {
    let mut lent = lists(9, 9, 8, raw::REPORT_WORDS + 1);
    let (mut ends, mut text) = ([ANY; 2], [b'#'; 30]);
    Document::listing().raw_report(&mut lent, &mut ends, &mut text);
    let check = [DONE, 0, 0, 1, 1, 1, 0, 1, 0];
    let messages = [DONE, 0, 0, 1, 28, ANY];
    assert_eq!(lent.out, [&check[..], &messages[..]].concat());
    assert_eq!(lent.list, FINDING);
    assert_eq!(ends, [28, ANY]);
    assert_eq!(&text, b"expected verse 1 but found 2##");
}

#[test]
fn empty_slices_everywhere() {
    let mut out = [ANY; 9];
    raw::check(&[], &[], &[], &mut [], &mut [], &mut [], &mut []);
    raw::check(&[], &[], &[], &mut [], &mut [], &mut [], &mut out);
    assert_eq!(out[..3], [REFUSED, 4, 0]);
    raw::message(&[], &[], &[], MessageRequest::default(), &mut [], &mut []);
    raw::message(&[], &[], &[], MessageRequest::default(), &mut [], &mut out);
    assert_eq!(out[..4], [REFUSED, 4, 0, 0]);
    raw::messages(&[], &[], &[], &[], &mut [], &mut [], &mut []);
    raw::messages(&[], &[], &[], &[], &mut [], &mut [], &mut out);
    assert_eq!(out[..5], [REFUSED, 4, 0, 0, 0]);
    let mut both = [ANY; raw::REPORT_WORDS];
    let report = |out: &mut [u64]| {
        let (seen, opens, list) = (&mut [], &mut [], &mut []);
        raw::report(&[], &[], &[], seen, opens, list, &mut [], &mut [], out);
    };
    report(&mut []);
    report(&mut both);
    assert_eq!(both, [2, 4, 0, 0, 0, 0, 0, 0, 0, 2, 4, 0, 0, 0]);
    raw::tally(&[], &mut [], &mut []);
    raw::tally(&[], &mut [], &mut out);
    assert_eq!(out[..3], [DONE, 0, 0]);
    raw::mark(0, 0, 0, &mut []);
    raw::read(&[], &[], &mut [], &mut []);
    raw::read(&[], &[], &mut [], &mut out);
    assert_eq!(out[..4], [REFUSED, 18, 1, 0]);
}
