//! What was compared.

use std::fmt::Write;

use super::FINDING_WORDS;
use super::accounts::Paired;
use crate::drafts::Shown;
use crate::reached::Reached;

#[derive(Clone, Debug, Default, PartialEq, Eq)]
pub struct Counts {
    pub documents: u64,
    /// Those that numbers 1 to 9 let pass; their nodes and their findings.
    pub accepted: u64,
    pub nodes: u64,
    pub findings: u64,
    /// Documents with a sum past 32 bits: their findings aren't those of the published code.
    pub past_32_bits: u64,
    /// Checks with lists of any length: those that number 10 let pass too.
    pub checked: u64,
    pub cut: u64,
    /// Findings whose words were in the lent list.
    pub written: u64,
    /// Reports of a checker with limits, and those that met them.
    pub limited: u64,
    pub limited_cut: u64,
    /// Bytes of all lists that were lent, without their margins.
    pub lent_bytes: u64,
    /// Texts, those that have a tape, and the nodes of these; those whose tape is too long or too deep for a check.
    pub texts: u64,
    pub texts_read: u64,
    pub text_nodes: u64,
    pub too_long: u64,
    pub too_deep: u64,
    /// What the texts show that were compared as such.
    pub shown: Shown,
    /// Milestones of the accepted.
    pub paired: Paired,
    pub reached: Reached,
}

impl Counts {
    pub fn add(&mut self, other: &Counts) {
        self.documents += other.documents;
        self.accepted += other.accepted;
        self.nodes += other.nodes;
        self.findings += other.findings;
        self.past_32_bits += other.past_32_bits;
        self.checked += other.checked;
        self.cut += other.cut;
        self.written += other.written;
        self.limited += other.limited;
        self.limited_cut += other.limited_cut;
        self.lent_bytes += other.lent_bytes;
        self.texts += other.texts;
        self.texts_read += other.texts_read;
        self.text_nodes += other.text_nodes;
        self.too_long += other.too_long;
        self.too_deep += other.too_deep;
        self.shown.add_all(&other.shown);
        self.paired.add(&other.paired);
        self.reached.add(&other.reached);
    }

    pub(super) fn lent(&mut self, bytes: &[usize]) {
        self.lent_bytes += bytes.iter().sum::<usize>() as u64;
    }

    pub(super) fn accepted(&mut self, nodes: usize, list: &[u64]) {
        self.accepted += 1;
        self.nodes += nodes as u64;
        for words in list.as_chunks::<FINDING_WORDS>().0 {
            self.findings += 1;
            self.reached.finding(words[1], words[5]);
        }
    }

    pub(super) fn checked(&mut self, is_cut: bool, written: u64) {
        self.checked += 1;
        self.cut += u64::from(is_cut);
        self.written += written;
    }

    pub(super) fn limited(&mut self, is_cut: bool) {
        self.limited += 1;
        self.limited_cut += u64::from(is_cut);
    }

    pub(super) fn text(&mut self, nodes: Option<usize>) {
        self.texts += 1;
        self.texts_read += u64::from(nodes.is_some());
        self.text_nodes += nodes.unwrap_or(0) as u64;
    }

    /// What was compared of texts, on one line.
    pub fn text_line(&self) -> String {
        line(&self.of_texts())
    }

    fn of_texts(&self) -> [(&'static str, u64); 5] {
        [
            ("texts", self.texts),
            ("of them read", self.texts_read),
            ("nodes of these", self.text_nodes),
            ("with too many nodes for a check", self.too_long),
            ("too deep for one", self.too_deep),
        ]
    }

    /// The counts on one line.
    pub fn line(&self) -> String {
        let of_documents = [
            ("documents", self.documents),
            ("accepted", self.accepted),
            ("nodes", self.nodes),
            ("findings", self.findings),
            ("past 32 bits", self.past_32_bits),
            ("checked", self.checked),
            ("cut", self.cut),
            ("written", self.written),
            ("with limits", self.limited),
            ("cut by them", self.limited_cut),
            ("bytes lent", self.lent_bytes),
            ("pairs of milestones", self.paired.pairs),
            ("bases with several", self.paired.several),
            ("bases with some and mismatches", self.paired.partly),
            ("with crossing pairs", self.paired.crossing),
        ];
        line(&[&of_documents[..], &self.of_texts()].concat())
    }
}

fn line(counts: &[(&str, u64)]) -> String {
    let mut text = String::new();
    for (name, count) in counts {
        write!(text, ", {count} {name}").expect("a string takes all");
    }
    text.split_off(2)
}
