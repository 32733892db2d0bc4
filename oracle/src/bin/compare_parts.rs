//! Compares the library's table, tape check, cursor, labels, rows, attributes and attached numbers
//! with the published functions and with the plain refusals. Exit status 1 at the first difference.

use std::fmt::Debug;
use std::process::exit;

use oracle::arguments::numbers;
use oracle::differ::same;
use oracle::document::{Document, entries, kind};
use oracle::exhaustive::every_tape;
use oracle::generate::generate;
use oracle::refusals::refusal;
use oracle::rng::Rng;
use oracle::samples::Builder;
use oracle::{library, parts};

/// What names are made of: pieces of real ones, digits, hyphens and other characters.
const PIECES: [&str; 40] = [
    "v", "c", "q", "tc", "tcr", "th", "qt", "qt-s", "qt1-e", "w", "wa", "wg", "wh", "rb", "xt",
    "ref", "jmp", "periph", "fr", "ft", "fk", "fq", "fqa", "fl", "fw", "fp", "fv", "fdc", "xop",
    "xot", "xnt", "xdc", "xo", "-", "1", "12", "0", "2-3", "é", "",
];

/// Book codes, near misses and the codes of front matter.
const CODES: [&str; 24] = [
    "GEN", "REV", "XXG", "FRT", "INT", "BAK", "OTH", "CNC", "GLO", "TDX", "NDX", "gen", "Gen",
    "GE", "GENE", "", "1SA", "1sa", "6EZ", "LAO", "LAA", "XXH", "PS2", "ΓEN",
];

/// Markers with a default attribute, without one, and near misses.
const OWNERS: [&str; 16] = [
    "\\w", "\\w ", "\\+w", "\\w1", "\\rb", "\\xt", "\\jmp", "\\ref", "\\periph", "\\qt-s",
    "\\qt1-s", "\\ts-s", "\\add", "\\fig", "\\wé", "\\",
];

/// What the texts of attributes are made of.
const ATTRIBUTES: [&str; 34] = [
    "\"", "\"", "\"", "\\\"", "\\\"", "\\", "\\\\", "=", "=", "=\"", "=\"", "=\"\"", "=\"a\"",
    "=\"é\" ", "=a ", "a", "b", "lemma", "x-é", "é", "\u{65e5}", " ", " ", "\t", "\n", "\u{b}",
    "\u{85}", "\u{a0}", "\u{2003}", "\u{3000}", "\u{200b}", "|", "|", "",
];

fn longest(document: &Document) -> Option<(u32, u64)> {
    refusal(document, usize::MAX, usize::MAX)
}

/// Number 1, and the entries of a table that has its layout.
fn table(document: &Document, rng: &mut Rng) {
    let table = &document.table;
    let theirs = match longest(document) {
        Some((1, place)) => Err(place),
        _ => Ok(entries(table).map_or(0, |list| list.len())),
    };
    same("table", table, library::table(table), theirs);
    let Ok(count) = theirs else {
        return;
    };
    let read = entries(table).expect("number 1 passed it");
    for k in [rng.below(count + 1), count, 65_535] {
        let entry = read
            .get(k)
            .map(|entry| (entry.category as u8, entry.role as u8));
        same("info", table, library::info(table, k as u16), entry);
    }
    let known = match count {
        0 => "",
        _ => read[rng.below(count)].name,
    };
    for name in [known.to_string(), format!("{known}1-2"), name(rng)] {
        let theirs = parts::lookup(table, &name);
        same(
            "lookup",
            &(table, &name),
            library::lookup(table, name.as_bytes()),
            theirs,
        );
    }
}

/// Numbers 4 to 8 over a good source, whatever the table is.
fn tape(document: &Document) -> bool {
    let bare = Document {
        table: Vec::new(),
        source: document.source.clone(),
        tape: document.tape.clone(),
    };
    let theirs = longest(&bare);
    if matches!(theirs, Some((2 | 3, _))) {
        return false;
    }
    let ours = library::tape_check(&bare.source, &bare.tape);
    same("tape_check", &(&bare.source, &bare.tape), ours, theirs);
    theirs.is_none()
}

/// The cursor on an accepted tape.
fn cursor(document: &Document, rng: &mut Rng) {
    let (s, t) = (&document.source, &document.tape);
    for (k, seen) in parts::seen_nodes(document).into_iter().enumerate() {
        let i = k + 1;
        let at = (s, t, i);
        same("text", &at, library::text(s, t, i), seen.text);
        same("marker_name", &at, library::marker_name(s, t, i), seen.name);
        same(
            "first_child",
            &at,
            library::first_child(t, i),
            seen.first_child,
        );
        same(
            "next_sibling",
            &at,
            library::next_sibling(t, i),
            seen.next_sibling,
        );
        same("children", &at, library::children(t, i), seen.children);
        same("number", &at, library::number(t, i), seen.number);
        // Each call indexes the table anew, so some nodes have to do.
        if rng.one_in(16) {
            let ours = library::marker_info(&document.table, t, i);
            same("marker_info", &(&document.table, at), ours, seen.info);
        }
    }
}

/// What the documents had of each kind.
#[derive(Default)]
struct Counts {
    accepted: u64,
    nodes: u64,
    labels: u64,
    glued: u64,
    number_9: u64,
    rows: u64,
    rows_with_cells: u64,
    rows_with_findings: u64,
    rows_past_32_bits: u64,
    lists: u64,
    lists_with_attributes: u64,
    attribute_findings: u64,
    anchors: u64,
    attached: u64,
}

/// Number 9 where numbers 1 to 8 pass, and, where it passes too, the labels of chapters and verses.
fn labels(document: &Document, counts: &mut Counts) {
    let refused = longest(document);
    let theirs = refused.map(|(number, place)| {
        assert_eq!(number, 9, "numbers 1 to 8 pass this document");
        place as usize
    });
    same(
        "label_check",
        document,
        library::label_check(document),
        theirs,
    );
    if theirs.is_some() {
        counts.number_9 += 1;
        return;
    }
    for (i, (label, glued)) in parts::labels(document) {
        counts.glued += u64::from(glued);
        counts.labels += 1;
        let ours = library::number_label(document, i);
        same("number_label", &(document, i), ours, (label, glued));
    }
}

/// A finding without its node, which the published code doesn't say.
fn without_node(
    [severity, code, start, len, _, form, first, second]: [u64; 8],
) -> parts::WordsWithoutNode {
    [severity, code, start, len, form, first, second]
}

/// What is found of the cells of each open node.
fn rows(document: &Document, rng: &mut Rng, counts: &mut Counts) {
    let (s, t) = (&document.source, &document.tape);
    let n = document.node_count();
    for row in parts::rows(document) {
        let i = row.node;
        let Some(theirs) = row.findings else {
            counts.rows_past_32_bits += 1;
            continue;
        };
        // Each call checks the tape anew, so of a long one some nodes without cells have to do.
        if row.cells == 0 && !rng.one_in(1 + n / 64) {
            continue;
        }
        counts.rows += 1;
        counts.rows_with_cells += u64::from(row.cells != 0);
        counts.rows_with_findings += u64::from(!theirs.is_empty());
        let ours = library::table_row(s, t, i);
        for finding in ours.iter().flatten() {
            let node = document.node(finding[4] as usize);
            let span = (u64::from(node.start), u64::from(node.len));
            same("node of a cell", &(s, t, i), (finding[2], finding[3]), span);
        }
        let ours = ours.map(|list| list.into_iter().map(without_node).collect());
        same("validate_table_row", &(s, t, i), ours, Some(theirs));
    }
    let other = rng.below(n + 2);
    if other >= n || document.node(other).kind != kind::MARKER_OPEN {
        same(
            "row of no node",
            &(s, t, other),
            library::table_row(s, t, other),
            None,
        );
    }
}

/// What is found of the attributes of an open node, and of which of them.
fn attribute_list(input: &dyn Debug, document: &Document, theirs: parts::Attributes) {
    let ours = library::attributes(&document.source, &document.tape, theirs.node);
    for finding in ours.iter().flatten() {
        let place = finding[4] as usize;
        let among = theirs.children.contains(&place);
        same("child of a finding", &(input, place), among, true);
        let node = document.node(place);
        let span = (u64::from(node.start), u64::from(node.len));
        same("span of a child", input, (finding[2], finding[3]), span);
    }
    let ours = ours.map(|list| list.into_iter().map(without_node).collect());
    same("validate_attributes", input, ours, Some(theirs.findings));
}

/// What is found of the attributes of each open node.
fn attributes(document: &Document, rng: &mut Rng, counts: &mut Counts) {
    let (s, t) = (&document.source, &document.tape);
    let n = document.node_count();
    for list in parts::attributes(document) {
        // As with the rows.
        if list.children.is_empty() && !rng.one_in(1 + n / 64) {
            continue;
        }
        counts.lists += 1;
        counts.lists_with_attributes += u64::from(!list.children.is_empty());
        counts.attribute_findings += list.findings.len() as u64;
        attribute_list(&(s, t, list.node), document, list);
    }
    let other = rng.below(n + 2);
    if other >= n || document.node(other).kind != kind::MARKER_OPEN {
        same(
            "attributes of no node",
            &(s, t, other),
            library::attributes(s, t, other),
            None,
        );
    }
}

/// An attribute's text: a bar, most of the time, and pieces.
fn attribute(rng: &mut Rng) -> String {
    let bar = if rng.one_in(8) { "" } else { "|" };
    let pieces = (0..rng.below(14)).map(|_| rng.pick(&ATTRIBUTES));
    std::iter::once(bar).chain(pieces).collect()
}

/// One attribute of one marker. The number of its findings.
fn single_attribute(rng: &mut Rng) -> u64 {
    let (owner, text) = (rng.pick(&OWNERS), attribute(rng));
    let document = Builder::default()
        .open(0, owner)
        .leaf(kind::ATTRIBUTE, 0, &text, 0)
        .close(kind::MARKER_CLOSE, "\\w*")
        .under(&[]);
    let mut findings = 0;
    for list in parts::attributes(&document) {
        findings += list.findings.len() as u64;
        attribute_list(&(owner, &text), &document, list);
    }
    findings
}

/// The numbers attached to each chapter and verse.
fn attached(document: &Document, rng: &mut Rng, counts: &mut Counts) {
    let (s, t) = (&document.source, &document.tape);
    let n = document.node_count();
    let anchors = parts::anchors(document);
    let pair = (rng.below(n + 2), rng.below(n + 2));
    if !anchors.iter().any(|it| (it.parent, it.node) == pair) {
        let ours = library::attached_numbers(s, t, pair);
        same("numbers attached to no child", &(s, t, pair), ours, None);
    }
    for anchor in anchors {
        counts.attached += anchor.starts.len() as u64;
        // As with the rows.
        if anchor.starts.is_empty() && !rng.one_in(1 + n / 64) {
            continue;
        }
        counts.anchors += 1;
        let pair = (anchor.parent, anchor.node);
        let ours = library::attached_numbers(s, t, pair);
        same("attached_numbers", &(s, t, pair), ours, Some(anchor.starts));
        for (at, theirs) in anchor.after {
            let ours = library::is_attached(s, t, pair, at);
            same("is_attached", &(s, t, pair, at), ours, theirs);
        }
    }
}

fn name(rng: &mut Rng) -> String {
    (0..rng.below(4)).map(|_| rng.pick(&PIECES)).collect()
}

fn names(rng: &mut Rng) {
    let name = name(rng);
    let s = name.as_bytes();
    let stripped = parts::strip_level_suffix(&name).as_bytes().to_vec();
    same(
        "strip_level_suffix",
        &name,
        library::strip_level_suffix(s),
        stripped,
    );
    let default = parts::default_attribute(&name);
    same(
        "default_attribute",
        &name,
        library::default_attribute(s),
        default,
    );
    let note = parts::is_note_only_marker(&name);
    same(
        "is_note_only_marker",
        &name,
        library::is_note_only_marker(s),
        note,
    );
    let code = rng.pick(&CODES);
    let c = code.as_bytes();
    same("from_code", &code, library::book(c), parts::book(code));
    let front = parts::is_front_matter_code(code);
    same(
        "is_front_matter_code",
        &code,
        library::is_front_matter_code(c),
        front,
    );
}

/// Every code of three capital letters or digits, which has the whole list among them.
fn every_code() {
    let letters: Vec<char> = ('A'..='Z').chain('0'..='9').collect();
    for &a in &letters {
        for &b in &letters {
            for &c in &letters {
                let code: String = [a, b, c].iter().collect();
                let s = code.as_bytes();
                same("from_code", &code, library::book(s), parts::book(&code));
                let front = parts::is_front_matter_code(&code);
                same(
                    "is_front_matter_code",
                    &code,
                    library::is_front_matter_code(s),
                    front,
                );
            }
        }
    }
}

fn main() {
    let (mut documents, mut texts, mut seed) = (100_000, 1_000_000, 1);
    if let Err(why) = numbers(&mut [
        ("--documents", &mut documents),
        ("--texts", &mut texts),
        ("--seed", &mut seed),
    ]) {
        eprintln!("{why}");
        exit(1);
    }
    every_code();
    let mut tapes = 0u64;
    every_tape(4, &mut |document: &Document| {
        tape(document);
        tapes += 1;
    });
    let mut rng = Rng::new(seed);
    let mut counts = Counts::default();
    for seed in (0..documents).map(|more| seed.wrapping_add(more)) {
        let document = generate(seed);
        table(&document, &mut rng);
        let good = tape(&document);
        if good && !matches!(longest(&document), Some((1, _))) {
            cursor(&document, &mut rng);
            labels(&document, &mut counts);
            rows(&document, &mut rng, &mut counts);
            attributes(&document, &mut rng, &mut counts);
            attached(&document, &mut rng, &mut counts);
            counts.accepted += 1;
            counts.nodes += document.node_count() as u64;
        }
        names(&mut rng);
    }
    let text_findings: u64 = (0..texts).map(|_| single_attribute(&mut rng)).sum();
    let Counts {
        accepted,
        nodes,
        labels,
        glued,
        number_9,
        rows,
        rows_with_cells,
        rows_with_findings,
        rows_past_32_bits,
        lists,
        lists_with_attributes,
        attribute_findings,
        anchors,
        attached,
    } = counts;
    println!(
        "parts: no difference on {tapes} small tapes, {documents} documents from seed {seed}, {accepted} of them with a good table and tape, {number_9} of these with number 9, and their {nodes} nodes; {labels} labels, {glued} of them glued; {rows} rows, {rows_with_cells} of them with cells, {rows_with_findings} with findings, and {rows_past_32_bits} not compared whose sums leave 32 bits; {lists} lists of attributes, {lists_with_attributes} of them with attributes, with {attribute_findings} findings; {anchors} chapters and verses with {attached} attached numbers; {texts} texts of single attributes with {text_findings} findings"
    );
}
