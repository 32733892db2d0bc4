//! The recorded answers are those that are given now, and cover what their README says.

use std::collections::BTreeSet;

use oracle::coverage::depth;
use oracle::document::entries;
use oracle::forms::FORMS;
use oracle::recorded::{Answer, Recorded, answer, read};
use oracle::refusals::is_blank;

fn recorded() -> Vec<Recorded> {
    read(include_bytes!("../recorded/answers.bin")).unwrap()
}

#[test]
fn each_answer_is_given_again() {
    for Recorded {
        document,
        answer: kept,
    } in recorded()
    {
        assert_eq!(
            answer(&document).unwrap(),
            Some(kept),
            "{}",
            document.to_hex()
        );
    }
}

#[test]
fn every_form_and_refusal_is_there() {
    let mut forms = BTreeSet::new();
    let mut refusals = BTreeSet::new();
    for recorded in recorded() {
        match recorded.answer {
            Answer::Refused(number, _) => {
                refusals.insert(number);
            }
            Answer::Checked(list) => {
                forms.extend(
                    list.iter()
                        .map(|finding| (finding.code, u64::from(finding.form))),
                );
            }
        }
    }
    assert_eq!(forms, BTreeSet::from(FORMS));
    assert_eq!(refusals, BTreeSet::from([1, 3, 4, 5, 6, 7, 8, 9]));
}

#[test]
fn blanks_depths_tables_and_root_links_are_there() {
    let mut blanks = BTreeSet::new();
    let mut depths = BTreeSet::new();
    let mut markers = BTreeSet::new();
    let mut own_close = BTreeSet::new();
    for Recorded { document, answer } in recorded() {
        if matches!(answer, Answer::Refused(..)) {
            continue;
        }
        let source = String::from_utf8(document.source.clone()).unwrap();
        blanks.extend(source.chars().filter(|&c| is_blank(c)));
        depths.insert(depth(&document));
        markers.insert(entries(&document.table).unwrap().len());
        own_close.insert(document.node(0).link as usize != document.node_count());
    }
    let all: BTreeSet<char> = ('\0'..=char::MAX).filter(|&c| is_blank(c)).collect();
    assert_eq!(blanks, all);
    assert!(depths.contains(&0) && depths.contains(&64));
    assert!(markers.contains(&0) && markers.last() >= Some(&16));
    assert_eq!(own_close.len(), 2);
}
