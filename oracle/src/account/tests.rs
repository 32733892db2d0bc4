use super::*;
use crate::cst::Cursor;
use crate::document::Entry;
use crate::generate::{generate, quoted};
use crate::marker::Category;
use crate::published::{Validated, form_and_numbers, try_validate, with_published};
use crate::refusals::refusal;
use crate::samples::{self, Builder, entry};
use crate::tape::NodeKind;
use crate::validate::milestone_base;

const TABLE: [Entry<'_>; 3] = [entry("qt-s", 6, 0), entry("p", 3, 2), entry("w", 4, 0)];
const MILESTONE: u16 = 0;
const PARAGRAPH: u16 = 1;
const CHARACTER: u16 = 2;
const UNKNOWN: u16 = 3;

fn milestone(builder: &mut Builder, name: &str) {
    builder.open(MILESTONE, &format!("\\{name}"));
    builder.close(kind::MARKER_CLOSE, "\\*");
}

/// Milestones of these names, one after another.
fn row_of(names: &[&str]) -> Document {
    let mut builder = Builder::default();
    for name in names {
        milestone(&mut builder, name);
    }
    builder.under(&TABLE)
}

/// The MilestoneMismatch findings that the published code gives of a document, as words. It names no node: the one here is the
/// first MarkerOpen of the finding's span, which has its base. `None` where a sum leaves 32 bits.
fn published_list(document: &Document) -> Option<Vec<u64>> {
    let Validated::Findings(found) = try_validate(document).unwrap() else {
        return None;
    };
    let mut list = Vec::new();
    for found in found.iter().filter(|found| found.code == 16) {
        let (form, _, _) = form_and_numbers(found.code, &found.message).unwrap();
        let is_it = |node: Node| {
            node.kind == kind::MARKER_OPEN && (node.start, node.len) == (found.start, found.len)
        };
        let node = document.nodes().position(is_it).unwrap() as u64;
        let [start, len] = [found.start, found.len].map(u64::from);
        list.extend([0, MISMATCH, start, len, node, form, 0, 0]);
    }
    Some(list)
}

/// The accepted documents of the first seeds, each with its published list.
fn generated(seeds: u64) -> impl Iterator<Item = (Document, Vec<u64>)> {
    let accepted = |document: &Document| refusal(document, usize::MAX, usize::MAX).is_none();
    let documents = (0..seeds).map(generate).filter(accepted);
    documents.filter_map(|document| {
        let list = published_list(&document)?;
        Some((document, list))
    })
}

fn balance(accounts: &Accounts<'_>) -> bool {
    accounts.values().all(Account::balances)
}

/// Expects these pairs, by their places among the visits, and of each base these starts, ends, pairs and mismatches, which
/// balance. No two MarkerOpens of the document have the same span, so that the published findings are those owed.
#[track_caller]
fn expect(document: &Document, paired: &[(usize, usize)], sums: &[(&str, [u64; 4])]) {
    let list = published_list(document).unwrap();
    let visits = visits(document);
    let pairs = pairs(&visits);
    let places: Vec<(usize, usize)> = pairs.iter().map(|pair| (pair.start, pair.end)).collect();
    assert_eq!(places, paired);
    assert_eq!(mismatches(&list), owed(&visits, &pairs));
    let accounts = account(document, &list);
    assert!(balance(&accounts), "{accounts:?}");
    let given = accounts
        .iter()
        .map(|(&base, of)| (base, [of.starts, of.ends, of.pairs, of.mismatches]));
    assert_eq!(given.collect::<Vec<_>>(), sums);
}

#[test]
fn nested_quotations_pair_from_the_inside() {
    let nested = row_of(&["qt-s", "qt-s", "qt-e", "qt-e"]);
    expect(&nested, &[(1, 2), (0, 3)], &[("qt", [2, 2, 2, 0])]);
    let deeper = row_of(&["qt-s", "qt-s", "qt-e", "qt-s", "qt-e", "qt-e"]);
    let pairs = [(1, 2), (3, 4), (0, 5)];
    expect(&deeper, &pairs, &[("qt", [3, 3, 3, 0])]);
}

#[test]
fn crossing_quotations_pair_by_base() {
    let document = row_of(&["qt-s", "zaln-s", "qt-e", "zaln-e"]);
    let sums = [("qt", [1, 1, 1, 0]), ("zaln", [1, 1, 1, 0])];
    expect(&document, &[(0, 2), (1, 3)], &sums);
    assert!(has_crossing(&pairs(&visits(&document))));
    let apart = row_of(&["qt-s", "qt-s", "qt-e", "zaln-s", "zaln-e", "qt-e"]);
    assert!(!has_crossing(&pairs(&visits(&apart))));
}

#[test]
fn unclosed_quotations_are_of_their_own_base() {
    let names = ["qt-s", "zaln-s", "qt-s", "zaln-s", "qt-e"];
    let sums = [("qt", [2, 1, 1, 1]), ("zaln", [2, 0, 0, 2])];
    expect(&row_of(&names), &[(2, 4)], &sums);
}

#[test]
fn an_end_takes_no_start_behind_it_and_none_twice() {
    let names = ["qt-e", "qt-s", "qt-e", "qt-e"];
    expect(&row_of(&names), &[(1, 2)], &[("qt", [1, 3, 1, 2])]);
    let ends = row_of(&["qt-e", "zaln-e", "qt-e"]);
    let sums = [("qt", [0, 2, 0, 2]), ("zaln", [0, 1, 0, 1])];
    expect(&ends, &[], &sums);
}

#[test]
fn a_base_that_begins_another_is_another() {
    let names = ["qt-s", "qt1-s", "qt-e", "qt-e", "qt1-e", "qt1-e"];
    let sums = [("qt", [1, 2, 1, 1]), ("qt1", [1, 2, 1, 1])];
    expect(&row_of(&names), &[(0, 2), (1, 4)], &sums);
    // The last `-s` or `-e` alone is no part of a base, and the base may be empty.
    let names = ["-s", "qt-s-s", "qt-s", "qt-s-e", "-e", "qt-e-e"];
    let sums = [
        ("", [1, 1, 1, 0]),
        ("qt", [1, 0, 0, 1]),
        ("qt-e", [0, 1, 0, 1]),
        ("qt-s", [1, 1, 1, 0]),
    ];
    expect(&row_of(&names), &[(1, 3), (0, 4)], &sums);
}

#[test]
fn a_start_that_holds_its_end_pairs_with_it() {
    let mut builder = Builder::default();
    builder.open(PARAGRAPH, "\\p");
    builder.open(MILESTONE, "\\qt-s");
    milestone(&mut builder, "+qt-e");
    milestone(&mut builder, "qt-e|");
    let document = builder.under(&TABLE);
    expect(&document, &[(0, 1)], &[("qt", [1, 2, 1, 1])]);
}

/// A start below a marker without an entry, a start without an entry, and an end in the open behind them.
fn passed_over() -> Document {
    let mut builder = Builder::default();
    builder.open(UNKNOWN, "\\zz").open(PARAGRAPH, "\\p");
    milestone(&mut builder, "qt-s");
    milestone(&mut builder, "zaln-e");
    builder.end().end();
    builder.open(UNKNOWN, "\\qt-s").end();
    builder.open(UNKNOWN, "\\x-s");
    milestone(&mut builder, "x-e");
    builder.end();
    milestone(&mut builder, "qt-e");
    builder.under(&TABLE)
}

#[test]
fn what_is_passed_over_has_no_part_in_it() {
    expect(&passed_over(), &[], &[("qt", [0, 1, 0, 1])]);
}

#[test]
fn only_milestones_with_a_side_are_counted() {
    let mut builder = Builder::default();
    builder.open(CHARACTER, "\\qt-s").end();
    builder.open(PARAGRAPH, "\\qt-e").end();
    builder.leaf(kind::VERSE, MILESTONE, "\\qt-s", 1);
    builder.leaf(kind::TEXT, MILESTONE, "\\qt-e", 1);
    for name in ["ts", "qt", "qt-S", "qt-s-", "s", "-"] {
        milestone(&mut builder, name);
    }
    expect(&builder.under(&TABLE), &[], &[]);
}

#[test]
fn a_finding_counts_by_code_and_by_its_nodes_base() {
    let document = row_of(&["qt-s", "zaln-s"]);
    let finding = |code, node| [0, code, 0, 0, node, 0, 0, 0];
    let sum = |list: &[[u64; 8]]| account(&document, list.as_flattened());
    let mismatches = |list: &[[u64; 8]]| ["qt", "zaln"].map(|base| sum(list)[base].mismatches);
    let (qt, zaln) = (finding(16, 1), finding(16, 3));
    assert_eq!(mismatches(&[qt, zaln]), [1, 1]);
    assert_eq!(mismatches(&[qt, qt, finding(15, 3)]), [2, 0]);
    assert!(balance(&sum(&[zaln, qt])) && !balance(&sum(&[qt, qt])));
    // A node without a base is of none; that it isn't owed is what `owed` shows.
    for node in [0, 2, 5, u64::MAX] {
        assert_eq!(mismatches(&[finding(16, node)]), [0, 0]);
    }
}

/// Visits by the published cursor, as the published `walk` goes.
fn published_visits<'a>(parent: Cursor<'a>, visits: &mut Vec<(u64, bool, String)>) {
    for child in parent.children() {
        let info = child.marker_info();
        let Some(info) = info.filter(|_| child.kind() == NodeKind::MarkerOpen) else {
            continue;
        };
        let name = child.marker_name();
        if let Some(base) = milestone_base(name).filter(|_| info.category == Category::Milestone) {
            let is_start = name.ends_with("-s");
            visits.push((child.idx.into(), is_start, base.to_string()));
        }
        published_visits(child, visits);
    }
}

#[test]
fn visits_are_those_of_the_published_walk() {
    let documents = generated(3_000).map(|(document, _)| document);
    for document in documents.chain((0..1_000).map(quoted)) {
        let ours = visits(&document)
            .iter()
            .map(|visit| {
                (
                    visit.node,
                    visit.side == Side::Start,
                    visit.base.to_string(),
                )
            })
            .collect::<Vec<_>>();
        let mut theirs = Vec::new();
        with_published(&document, |root| published_visits(root, &mut theirs));
        assert_eq!(ours, theirs);
    }
}

#[test]
fn accounts_of_generated_documents_balance() {
    let (mut several, mut alone, mut crossing) = (0, 0, 0);
    for (document, list) in generated(3_000) {
        let accounts = account(&document, &list);
        assert!(balance(&accounts), "{accounts:?}\n{}", document.to_hex());
        let any = |test: fn(&Account) -> bool| usize::from(accounts.values().any(test));
        several += any(|of| of.pairs >= 2);
        alone += any(|of| of.mismatches >= 1);
        crossing += usize::from(has_crossing(&pairs(&visits(&document))));
    }
    // Few of these documents have much to pair; those of `quoted` do.
    assert!(several > 0 && alone > 100 && crossing > 0);
}

#[test]
fn accounts_of_documents_with_many_milestones_balance() {
    for document in (0..1_000).map(quoted) {
        let list = published_list(&document).unwrap();
        let accounts = account(&document, &list);
        assert!(balance(&accounts), "{accounts:?}\n{}", document.to_hex());
    }
}

#[test]
fn accounts_of_documents_by_hand_balance() {
    let read = samples::TEXTS.iter().map(|text| samples::read(text));
    for document in read.chain(samples::shaped()) {
        let list = published_list(&document).unwrap();
        assert!(balance(&account(&document, &list)));
    }
}

#[test]
fn pairs_of_one_base_never_cross() {
    for document in (0..1_000).map(quoted) {
        let visits = visits(&document);
        let pairs = pairs(&visits);
        for base in visits.iter().map(|visit| visit.base) {
            let of_base = pairs.iter().filter(|pair| visits[pair.end].base == base);
            assert!(!has_crossing(&of_base.copied().collect::<Vec<_>>()));
        }
    }
}

/// Pairs by another taking rule: of the earlier starts that `may_take` lets pass, the nearest or the farthest.
fn altered_pairs(
    visits: &[Visit<'_>],
    is_nearest: bool,
    may_take: impl Fn(&[Pair], usize, usize) -> bool,
) -> Vec<Pair> {
    let mut pairs = Vec::new();
    for end in (0..visits.len()).filter(|&end| visits[end].side == Side::End) {
        let is_start = |&start: &usize| visits[start].side == Side::Start;
        let starts = (0..end).filter(is_start);
        let mut free = starts.filter(|&start| may_take(&pairs, start, end));
        let start = if is_nearest { free.last() } else { free.next() };
        pairs.extend(start.map(|start| Pair { start, end }));
    }
    pairs
}

fn is_free(pairs: &[Pair], start: usize) -> bool {
    pairs.iter().all(|pair| pair.start != start)
}

/// The account with the pairs that another rule gives.
fn with_pairs<'a>(
    document: &'a Document,
    list: &[u64],
    pairs: impl FnOnce(&[Visit<'a>]) -> Vec<Pair>,
) -> Accounts<'a> {
    let visits = visits(document);
    summed(document, &visits, &pairs(&visits), &mismatches(list))
}

#[test]
fn an_account_with_a_pair_counted_twice_breaks() {
    let document = row_of(&["qt-s", "qt-e"]);
    let twice = with_pairs(&document, &[], |visits| pairs(visits).repeat(2));
    assert!(balance(&account(&document, &[])) && !balance(&twice));
}

#[test]
fn an_account_with_a_start_taken_twice_breaks() {
    let document = row_of(&["qt-s", "qt-e", "qt-e"]);
    let list = published_list(&document).unwrap();
    let again = with_pairs(&document, &list, |visits| {
        let same_base = |start: usize, end: usize| visits[start].base == visits[end].base;
        altered_pairs(visits, true, |_, start, end| same_base(start, end))
    });
    assert!(balance(&account(&document, &list)) && !balance(&again));
}

#[test]
fn an_account_by_the_beginning_of_a_base_breaks() {
    let document = row_of(&["qt1-s", "qt-e"]);
    let list = published_list(&document).unwrap();
    let mixed = with_pairs(&document, &list, |visits| {
        let begins = |start: usize, end: usize| visits[start].base.starts_with(visits[end].base);
        altered_pairs(visits, true, |pairs, start, end| {
            is_free(pairs, start) && begins(start, end)
        })
    });
    assert!(balance(&account(&document, &list)) && !balance(&mixed));
}

#[test]
fn an_account_with_the_mismatches_of_every_base_breaks() {
    let document = row_of(&["qt-s", "zaln-s"]);
    let list = published_list(&document).unwrap();
    let mut all = account(&document, &list);
    assert!(balance(&all));
    for of_base in all.values_mut() {
        of_base.mismatches = mismatches(&list).len() as u64;
    }
    assert!(!balance(&all));
}

#[test]
fn an_account_with_what_is_passed_over_breaks() {
    let document = passed_over();
    let list = published_list(&document).unwrap();
    let mut visited = document.clone();
    for place in 0..visited.node_count() {
        let node = visited.node(place);
        let marker = node.marker.min(CHARACTER);
        visited.set_node(place, Node { marker, ..node });
    }
    assert!(balance(&account(&document, &list)));
    assert!(!balance(&account(&visited, &list)));
}

#[test]
fn the_farthest_start_balances_but_leaves_other_findings() {
    let farthest = |visits: &[Visit<'_>]| {
        altered_pairs(visits, false, |pairs, start, end| {
            is_free(pairs, start) && visits[start].base == visits[end].base
        })
    };
    // The number of pairs is the same, so that the sums alone can't tell.
    for document in (0..500).map(quoted) {
        let list = published_list(&document).unwrap();
        assert!(balance(&with_pairs(&document, &list, farthest)));
    }
    let document = row_of(&["qt-s", "qt-s", "qt-e"]);
    let list = published_list(&document).unwrap();
    let visits = visits(&document);
    assert_eq!(owed(&visits, &pairs(&visits)), mismatches(&list));
    assert_ne!(owed(&visits, &farthest(&visits)), mismatches(&list));
}
