//! Document 02's quotation account, plainly: the visited milestones of an accepted document, their pairs by module 9's taking
//! rule over the order of visits, and the sums of each base. No list of open starts is kept: the account judges the findings
//! that come from one.

use std::collections::BTreeMap;

use crate::document::{CATEGORIES, Document, Node, entries, kind};
use crate::refusals::marker_name;
use crate::texts::requests;

/// The code MilestoneMismatch, and its forms.
const MISMATCH: u64 = 16;
const UNCLOSED_START: u64 = 0;
const END_ALONE: u64 = 1;

#[derive(Clone, Copy, Debug, PartialEq, Eq)]
pub enum Side {
    Start,
    End,
}

/// A milestone start or end that the check visits.
#[derive(Clone, Copy, Debug, PartialEq, Eq)]
pub struct Visit<'a> {
    pub node: u64,
    pub side: Side,
    pub base: &'a str,
}

/// Places of a start and of the end that takes it, among the visits.
#[derive(Clone, Copy, Debug, PartialEq, Eq)]
pub struct Pair {
    pub start: usize,
    pub end: usize,
}

/// A finding of code MilestoneMismatch.
#[derive(Clone, Copy, Debug, PartialEq, Eq)]
pub struct Mismatch {
    pub form: u64,
    pub node: u64,
}

/// The sums of one base.
#[derive(Clone, Copy, Debug, Default, PartialEq, Eq)]
pub struct Account {
    pub starts: u64,
    pub ends: u64,
    pub pairs: u64,
    pub mismatches: u64,
}

impl Account {
    /// "visited starts plus visited ends equal twice the pairs plus the MilestoneMismatch findings of that base"
    pub fn balances(&self) -> bool {
        self.starts + self.ends == 2 * self.pairs + self.mismatches
    }
}

/// By base. A base that has no entry occurs nowhere: all of its sums are 0.
pub type Accounts<'a> = BTreeMap<&'a str, Account>;

fn text_of(document: &Document, node: Node) -> &str {
    let span = &document.source[node.start as usize..node.end() as usize];
    str::from_utf8(span).expect("a span of an accepted document splits no character")
}

/// The side and the base that a marker's name has, if it is a milestone's start or end.
fn side_and_base(name: &str) -> Option<(Side, &str)> {
    let start = name.strip_suffix("-s").map(|base| (Side::Start, base));
    let end = name.strip_suffix("-e").map(|base| (Side::End, base));
    start.or(end)
}

/// The milestones that the check visits, in its order, which is that of the tape.
pub fn visits(document: &Document) -> Vec<Visit<'_>> {
    let entries = entries(&document.table).expect("an accepted table has its layout");
    let n = document.node_count();
    let mut visits = Vec::new();
    let mut place = 1;
    while place < n {
        let node = document.node(place);
        let is_open = node.kind == kind::MARKER_OPEN;
        match entries.get(node.marker as usize).filter(|_| is_open) {
            // "A MarkerOpen whose marker number has no table entry is passed over with all below it."
            None if is_open => place = node.link as usize,
            // "A milestone start or end and its base are read from its marker": from its name as written.
            Some(entry) if CATEGORIES[entry.category] == "milestone" => {
                let name = marker_name(text_of(document, node));
                let visit = side_and_base(name).map(|(side, base)| Visit {
                    node: place as u64,
                    side,
                    base,
                });
                visits.extend(visit);
            }
            _ => {}
        }
        place += 1;
    }
    visits
}

/// Whether an end may take a start that stands before it.
fn fits(start: &Visit<'_>, end: &Visit<'_>) -> bool {
    start.side == Side::Start && start.base == end.base
}

/// "A visited end takes the nearest earlier visited start of the same base that no end took before", in the order of the ends.
pub fn pairs(visits: &[Visit<'_>]) -> Vec<Pair> {
    let mut taken = vec![false; visits.len()];
    let mut pairs = Vec::new();
    for (end, visit) in visits.iter().enumerate() {
        if visit.side == Side::End {
            let may_take = |&start: &usize| fits(&visits[start], visit) && !taken[start];
            let nearest = (0..end).rev().find(may_take);
            if let Some(start) = nearest {
                taken[start] = true;
                pairs.push(Pair { start, end });
            }
        }
    }
    pairs
}

/// The findings that these visits and pairs leave to be given: of each end that takes no start, in the order of visits, then
/// of each start that no end takes.
pub fn owed(visits: &[Visit<'_>], pairs: &[Pair]) -> Vec<Mismatch> {
    let mut paired = vec![false; visits.len()];
    for pair in pairs {
        paired[pair.start] = true;
        paired[pair.end] = true;
    }
    let alone = |side: Side, form: u64| {
        let all = visits.iter().zip(&paired);
        let alone = all.filter(move |&(visit, &paired)| visit.side == side && !paired);
        alone.map(move |(&Visit { node, .. }, _)| Mismatch { form, node })
    };
    let ends = alone(Side::End, END_ALONE);
    ends.chain(alone(Side::Start, UNCLOSED_START)).collect()
}

/// The MilestoneMismatch findings of a list, in its order.
pub fn mismatches(list: &[u64]) -> Vec<Mismatch> {
    let of_code = requests(list).filter(|request| request.code == MISMATCH);
    let mismatch = of_code.map(|request| Mismatch {
        form: request.form,
        node: request.node,
    });
    mismatch.collect()
}

/// The base of the node that a finding names.
fn base_of(document: &Document, mismatch: Mismatch) -> Option<&str> {
    let place = usize::try_from(mismatch.node).ok()?;
    // The root's span is never checked, so it has no text.
    if place == 0 || place >= document.node_count() {
        return None;
    }
    let name = marker_name(text_of(document, document.node(place)));
    side_and_base(name).map(|(_, base)| base)
}

/// The sums of each base that occurs among visits, pairs or findings.
pub fn summed<'a>(
    document: &'a Document,
    visits: &[Visit<'a>],
    pairs: &[Pair],
    mismatches: &[Mismatch],
) -> Accounts<'a> {
    let mut accounts = Accounts::new();
    for visit in visits {
        let of_base = accounts.entry(visit.base).or_default();
        match visit.side {
            Side::Start => of_base.starts += 1,
            Side::End => of_base.ends += 1,
        }
    }
    for pair in pairs {
        accounts.entry(visits[pair.end].base).or_default().pairs += 1;
    }
    for base in mismatches.iter().filter_map(|&one| base_of(document, one)) {
        accounts.entry(base).or_default().mismatches += 1;
    }
    accounts
}

/// The quotation account of an accepted document whose whole list of findings is this, eight words each.
pub fn account<'a>(document: &'a Document, list: &[u64]) -> Accounts<'a> {
    let visits = visits(document);
    summed(document, &visits, &pairs(&visits), &mismatches(list))
}

/// Whether the second of two pairs starts inside the first and ends behind it, for any two.
pub fn has_crossing(pairs: &[Pair]) -> bool {
    let crosses = |one: &Pair, other: &Pair| {
        one.start < other.start && other.start < one.end && one.end < other.end
    };
    let is_crossed = |one: &Pair| pairs.iter().any(|other| crosses(one, other));
    pairs.iter().any(is_crossed)
}

#[cfg(test)]
mod tests;
