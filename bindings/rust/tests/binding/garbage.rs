//! Bytes that are no document, and documents with bytes changed: an answer each time, and nothing written beyond it.

use harkoxin::raw::{self, DONE, FINDING_WORDS, OpenStart, REFUSED};
use harkoxin::{Checker, Code};

use crate::common::{Document, Lists, Numbers};

const MARGIN: usize = 3;

fn noise(numbers: &mut Numbers, most: usize) -> Vec<u8> {
    let len = numbers.below(most);
    (0..len).map(|_| numbers.word() as u8).collect()
}

/// Changes a few bytes: any, or the markers of nodes, or ASCII of the source to other ASCII.
fn damage(numbers: &mut Numbers, document: &mut Document) {
    for _ in 0..=numbers.below(3) {
        let byte = numbers.word() as u8;
        let in_table = numbers.below(document.table.len());
        let in_tape = numbers.below(document.tape.len());
        let node = in_tape / 16 * 16;
        let in_source = numbers.below(document.source.len());
        match numbers.below(16) {
            0 => document.table[in_table] = byte,
            1 => document.tape[in_tape] = byte,
            2 => document.source[in_source] = byte,
            3 => document.tape[node] = byte % 10,
            4..=8 => document.tape[node + 2] = byte % 24,
            _ if document.source[in_source].is_ascii() => {
                document.source[in_source] = b"\\ 019az|=\"*+-\n"[usize::from(byte % 14)]
            }
            _ => {}
        }
    }
}

/// Lists that are filled with anything, the working lists longer than they need be.
fn filled(numbers: &mut Numbers, nodes: usize) -> Lists {
    let room = numbers.below(400);
    let mut words = |len: usize| (0..len).map(|_| numbers.word()).collect::<Vec<u64>>();
    let open = |&word: &u64| OpenStart {
        node: (word >> 32) as u32,
        base_len: word as u32,
    };
    Lists {
        seen: words(nodes + MARGIN).iter().map(|&w| w as u32).collect(),
        opens: words(nodes + MARGIN).iter().map(open).collect(),
        list: words(room),
        out: words(raw::CHECK_WORDS + MARGIN),
    }
}

/// Looks at every element after a check; whether it was refused.
fn look(document: &Document, numbers: &mut Numbers) -> bool {
    let n = document.node_count();
    let mut lent = filled(numbers, n);
    let mut expected = lent.clone();
    document.raw_check(&mut lent);
    let [
        verdict,
        number,
        place,
        total,
        written,
        verses,
        errors,
        warnings,
        infos,
    ] = *lent.out.first_chunk().unwrap();
    let refused = verdict == REFUSED;
    let answer = if refused {
        assert!((1..=9).contains(&number));
        [REFUSED, number, place, 0, 0, 0, 0, 0, 0]
    } else {
        assert_eq!(errors + warnings + infos, total);
        assert_eq!(written, total.min(lent.list.len() as u64 / 8));
        let words = FINDING_WORDS * written as usize;
        expected.seen[..n].fill(0);
        expected.opens[..n].fill(OpenStart::default());
        expected.list[..words].copy_from_slice(&lent.list[..words]);
        let cut = u64::from(written < total);
        [cut, 0, 0, total, written, verses, errors, warnings, infos]
    };
    expected.out[..raw::CHECK_WORDS].copy_from_slice(&answer);
    assert_eq!(lent, expected);
    refused
}

/// Looks at the report of a document that isn't refused.
fn look_at_report(checker: &mut Checker, document: &Document) {
    let (table, tape) = (document.table(), document.tape());
    let report = checker.check_bytes(&table, &document.source, &tape);
    let report = report.unwrap();
    assert_eq!(report.findings().len() as u64, report.total());
    assert_eq!(report.tally().iter().sum::<u64>(), report.total());
    for finding in &report {
        assert!(finding.span().end <= document.source.len());
        assert!(finding.node() < document.node_count());
        assert!(!finding.message().is_empty());
    }
}

#[test]
fn noise_is_refused() {
    let numbers = &mut Numbers::from_seed(1);
    for _ in 0..3_000 {
        let document = Document {
            table: Vec::new(),
            source: noise(numbers, 6),
            tape: noise(numbers, 80),
        };
        assert!(look(&document, numbers));
        assert!(document.check().is_err());
    }
}

#[test]
fn damaged_documents_are_answered() {
    let numbers = &mut Numbers::from_seed(2);
    let mut checker = Checker::new();
    let (mut refused, mut checked) = (0, 0);
    for name in ["each-code", "greek", "arabic", "listing", "clean"] {
        let whole = Document::example(name);
        for _ in 0..600 {
            let mut document = whole.clone();
            damage(numbers, &mut document);
            if look(&document, numbers) {
                assert!(document.check().is_err());
                refused += 1;
            } else {
                look_at_report(&mut checker, &document);
                checked += 1;
            }
        }
    }
    assert!(refused > 300 && checked > 300, "{refused} {checked}");
}

#[test]
fn texts_of_anything_are_answered() {
    let numbers = &mut Numbers::from_seed(3);
    let document = Document::example("each-code");
    let mut counts = [0; 4];
    for _ in 0..4_000 {
        let mut list: Vec<u64> = (0..24).map(|_| numbers.word() % 140).collect();
        for finding in list.chunks_exact_mut(FINDING_WORDS) {
            finding[1] %= Code::COUNT as u64 + 1;
            finding[4] %= 104;
            finding[5] %= 2;
        }
        let (mut ends, mut text) = ([0; 3], [0; 150]);
        let answer = document.raw_messages(&list, &mut ends, &mut text);
        let [verdict, number, _, written, bytes] = answer;
        let (written, bytes) = (written as usize, bytes as usize);
        assert_eq!(verdict == DONE, written == 3);
        assert!(verdict == DONE || number == 12 || number == 13);
        assert!(ends[..written].is_sorted());
        assert_eq!(bytes as u64, ends[..written].last().copied().unwrap_or(0));
        assert!(std::str::from_utf8(&text[..bytes]).is_ok());
        assert!(text[bytes..].iter().all(|&byte| byte == 0));
        counts[written] += 1;
    }
    assert!(counts.iter().all(|&count| count > 10), "{counts:?}");
}

#[test]
fn tallies_of_anything_are_answered() {
    let numbers = &mut Numbers::from_seed(4);
    for _ in 0..2_000 {
        let len = numbers.below(60);
        let list: Vec<u64> = (0..len).map(|_| numbers.word() % 3).collect();
        let (mut counts, mut out) = ([0; Code::COUNT], [0; raw::TALLY_WORDS]);
        raw::tally(&list, &mut counts, &mut out);
        let whole = len as u64 / 8;
        if len.is_multiple_of(8) {
            assert_eq!(out, [DONE, 0, 0]);
            assert_eq!(counts.iter().sum::<u64>(), whole);
        } else {
            assert_eq!(out, [REFUSED, 11, whole]);
            assert_eq!(counts, [0; Code::COUNT]);
        }
    }
}
