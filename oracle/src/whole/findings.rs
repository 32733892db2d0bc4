//! A report's findings beside the published ones and those of document 02.

use harkoxin::{Finding, Position, Report};

use super::{FINDING_WORDS, FIRST, NODE};
use crate::differ::agree;
use crate::document::{Document, kind};
use crate::listing::place;
use crate::published::{Found, form_and_numbers};
use crate::tallies::tally;
use crate::unreadable::{self, place as place_of, unreadable};

/// The words of a report's findings, as the check writes them over a list.
pub fn words_of(report: &Report) -> Vec<u64> {
    report.findings().flat_map(|found| words(&found)).collect()
}

fn words(finding: &Finding<'_>) -> [u64; FINDING_WORDS] {
    let [first, second] = finding.numbers();
    let span = finding.span();
    [
        finding.severity().index() as u64,
        finding.code().index() as u64,
        span.start as u64,
        span.len() as u64,
        finding.node() as u64,
        finding.form() as u64,
        first,
        second,
    ]
}

/// The words of a published finding but for its node, which it doesn't say, and for the owner's node of code 32.
fn published_words(found: &Found) -> Result<[u64; FINDING_WORDS], String> {
    let (form, first, second) = form_and_numbers(found.code, &found.message)?;
    Ok([
        found.severity.into(),
        found.code.into(),
        found.start.into(),
        found.len.into(),
        0,
        form,
        first,
        second,
    ])
}

/// Whether a node can be the one that a finding of this code is about: its span, and its kind.
fn is_about(document: &Document, words: &[u64; FINDING_WORDS]) -> bool {
    let node = words[NODE] as usize;
    if matches!(words[1], 4 | 8) {
        return node == 0 && words[2..4] == [0, 0];
    }
    if node == 0 || node >= document.node_count() {
        return false;
    }
    let read = document.node(node);
    let kinds: &[u8] = match words[1] {
        7 => &[kind::TEXT],
        9 | 10 | 18 => &[kind::CHAPTER],
        11 | 12 | 19 | 20 | 35 => &[kind::VERSE],
        15 | 34 => &[kind::CHAPTER, kind::VERSE],
        17 | 22 | 32 => &[kind::ATTRIBUTE],
        _ => &[kind::MARKER_OPEN],
    };
    let spans = (u64::from(read.start), u64::from(read.len));
    kinds.contains(&read.kind) && spans == (words[2], words[3])
}

/// Whether the owner's node that code 32 gives is the open node around its attribute.
fn is_owned(document: &Document, words: &[u64; FINDING_WORDS]) -> bool {
    let (owner, node) = (words[FIRST] as usize, words[NODE] as usize);
    let mut around = 0;
    for place in 1..node {
        let read = document.node(place);
        if read.kind == kind::MARKER_OPEN && read.link as usize > node {
            around = place;
        }
    }
    owner == around
}

/// The nodes that a list of findings names.
pub fn same_nodes(document: &Document, list: &[u64]) -> Result<(), String> {
    for words in list.as_chunks().0 {
        if !is_about(document, words) {
            return Err(format!("no node of this finding: {words:?}"));
        }
        if words[1] == 32 && !is_owned(document, words) {
            return Err(format!("no owner of this finding: {words:?}"));
        }
    }
    Ok(())
}

fn is_unreadable(code: u64) -> bool {
    code == u64::from(unreadable::CODE)
}

/// The findings without those of code 35, and their texts, in order and number, are the published ones.
pub fn same_findings(report: &Report, theirs: &[Found]) -> Result<(), String> {
    let ours = report.findings();
    let ours: Vec<_> = ours
        .filter(|finding| !is_unreadable(finding.code().index() as u64))
        .collect();
    agree("findings without code 35", ours.len(), theirs.len())?;
    for (ours, found) in ours.iter().zip(theirs) {
        let words = words(ours);
        let mut expected = published_words(found)?;
        expected[NODE] = words[NODE];
        if found.code == 32 {
            expected[FIRST] = words[FIRST];
        }
        agree("a finding", words, expected)?;
        agree("a text", ours.message(), found.message.as_str())?;
    }
    Ok(())
}

/// The findings of code 35 are those of the plain rule, node included, in its order. Where the published code has a list, before
/// each of them stand as many others as the published code gives before that place.
pub fn same_unreadable(document: &Document, list: &[u64], has_places: bool) -> Result<(), String> {
    let mut given = Vec::new();
    let mut others = 0;
    for words in list.as_chunks::<FINDING_WORDS>().0 {
        match is_unreadable(words[1]) {
            true => given.push((*words, others)),
            false => others += 1,
        }
    }
    let plain = unreadable(document);
    agree("findings of code 35", given.len(), plain.len())?;
    for ((words, others), verse) in given.into_iter().zip(plain) {
        agree("a finding of code 35", words, verse.words(document))?;
        if has_places {
            let place = place_of(document, verse.node)?;
            agree("the place of a finding of code 35", others, place)?;
        }
    }
    Ok(())
}

/// Findings of code 35 stand between those of the same node that the documents have before them, of codes 12 and 20, and those that
/// they have behind them, of codes 34 and 15.
pub fn between_its_own(list: &[u64]) -> Result<(), String> {
    let findings = list.as_chunks::<FINDING_WORDS>().0;
    for (k, words) in findings.iter().enumerate() {
        if !is_unreadable(words[1]) {
            continue;
        }
        let of_node = |other: &&[u64; FINDING_WORDS]| other[NODE] == words[NODE];
        let before = findings[..k]
            .iter()
            .filter(of_node)
            .all(|it| [12, 20].contains(&it[1]));
        let behind = findings[k + 1..]
            .iter()
            .filter(of_node)
            .all(|it| [34, 15].contains(&it[1]));
        agree(
            "the place of a finding of code 35 among its node's",
            (before, behind),
            (true, true),
        )?;
    }
    Ok(())
}

/// Lines and columns, of up to 40 findings: the plain ones read the source anew for each.
pub fn same_positions(report: &Report, source: &[u8]) -> Result<(), String> {
    let source = str::from_utf8(source).expect("an accepted source is UTF-8");
    let findings = report.findings().zip(report.positions(source));
    for (finding, position) in findings.take(40) {
        let start = finding.span().start;
        let (line, column) = place(source, start);
        let line_start = source[..start].rfind('\n').map_or(0, |end| end + 1);
        let expected = Position {
            line,
            column,
            byte_column: 1 + start - line_start,
        };
        agree("a position among all", position, expected)?;
        agree("a position", finding.position(source), expected)?;
    }
    Ok(())
}

fn of_severity(list: &[u64], severity: u64) -> u64 {
    let (records, _) = list.as_chunks::<FINDING_WORDS>();
    let of = records.iter().filter(|words| words[0] == severity);
    of.count() as u64
}

/// Errors, warnings and infos of a list.
pub fn severities(list: &[u64]) -> [u64; 3] {
    [0, 1, 2].map(|severity| of_severity(list, severity))
}

/// The counts of a report, whose findings are these, and the verses that were visited.
pub fn same_counts(report: &Report, list: &[u64], verses: u64) -> Result<(), String> {
    let total = (list.len() / FINDING_WORDS) as u64;
    agree("a report's total", report.total(), total)?;
    agree("whether a report is cut", report.is_cut(), false)?;
    let counted = [report.errors(), report.warnings(), report.infos()];
    agree("a report's severities", counted, severities(list))?;
    agree("a report's verses", report.verses(), verses)?;
    agree("a report's tally", Ok(*report.tally()), tally(list))
}
