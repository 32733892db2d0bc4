//! The library through its binding, in turn with the published code.

use std::hint::black_box;
use std::time::{Duration, Instant};

use harkoxin::raw::{self, CHECK_WORDS, DONE, FINDING_WORDS, OpenStart};
use harkoxin::{Checker, Table, Tape};

use super::{Published, Timer, with_published};
use crate::document::Document;

/// Rounds of one sweep.
pub(super) const FEWEST_ROUNDS: usize = 2;
pub(super) const MOST_ROUNDS: usize = 1_000;

/// What has run for as many seconds isn't run again.
const ENOUGH: f64 = 2.0;

/// Whether a `Checker` is measured too: it makes the texts of the findings, as the published code does.
#[derive(Clone, Copy, PartialEq, Eq)]
pub enum Texts {
    Made,
    Left,
}

/// The best of some rounds, in seconds.
#[derive(Clone, Copy)]
pub struct Best {
    pub seconds: f64,
    pub rounds: usize,
    /// The seconds of all rounds together.
    spent: f64,
}

impl Best {
    pub(super) const NONE: Best = Best {
        seconds: f64::MAX,
        rounds: 0,
        spent: 0.0,
    };

    pub(super) fn is_wanted(&self) -> bool {
        self.spent < ENOUGH
    }

    pub(super) fn add(&mut self, seconds: f64) {
        self.seconds = self.seconds.min(seconds);
        self.rounds += 1;
        self.spent += seconds;
    }
}

/// What is measured of documents that are checked one after another.
pub struct Measured {
    pub nodes: usize,
    pub bytes: usize,
    pub findings: u64,
    pub library: Best,
    pub with_texts: Option<Best>,
    pub rust: Best,
}

/// The lists that are lent to the check and kept from one document to the next.
struct Lists {
    seen: Vec<u32>,
    opens: Vec<OpenStart>,
    list: Vec<u64>,
    checker: Checker,
}

impl Lists {
    /// Lists long enough for each of the documents, which have so many findings together. They don't begin as zeros, so that
    /// their memory is there before the first round.
    fn new(documents: &[Document], findings: u64) -> Lists {
        let counts = documents.iter().map(Document::node_count);
        let n = counts.max().unwrap_or(0);
        let open = OpenStart {
            node: 1,
            base_len: 1,
        };
        Lists {
            seen: vec![1; n],
            opens: vec![open; n],
            list: vec![1; FINDING_WORDS * findings as usize],
            checker: Checker::new(),
        }
    }

    fn check(&mut self, table: &[u8], document: &Document) -> [u64; CHECK_WORDS] {
        let mut answer = [0; CHECK_WORDS];
        raw::check(
            black_box(table),
            black_box(&document.source),
            black_box(&document.tape),
            &mut self.seen,
            &mut self.opens,
            &mut self.list,
            &mut answer,
        );
        black_box(answer)
    }

    /// Checks each document: the seconds of all together, and the number of findings.
    fn run(&mut self, documents: &[Document]) -> (f64, u64) {
        let table = &documents[0].table;
        let (mut seconds, mut total) = (0.0, 0);
        for document in documents {
            let timer = Timer::start();
            let answer = self.check(table, document);
            seconds += timer.seconds();
            assert_eq!(answer[0], DONE, "checked, and not cut");
            total += answer[3];
        }
        (seconds, total)
    }

    /// The same with the texts of the findings. The time to free a report isn't counted.
    fn run_with_texts(&mut self, documents: &[Document]) -> (f64, u64) {
        let table = Table::new(&documents[0].table);
        let (mut seconds, mut total) = (0.0, 0);
        for document in documents {
            let (source, tape) = (&document.source, Tape::from_bytes(&document.tape));
            let timer = Timer::start();
            let report = black_box(self.checker.check_bytes(&table, black_box(source), &tape));
            seconds += timer.seconds();
            let report = report.expect("an accepted document");
            assert!(!report.is_cut());
            total += report.total();
        }
        (seconds, total)
    }
}

impl Measured {
    /// Nothing measured yet of these documents, which have one table.
    pub fn new(documents: &[Document], texts: Texts) -> Measured {
        Measured {
            nodes: documents.iter().map(Document::node_count).sum(),
            bytes: documents.iter().map(|it| it.source.len()).sum(),
            findings: 0,
            library: Best::NONE,
            with_texts: (texts == Texts::Made).then_some(Best::NONE),
            rust: Best::NONE,
        }
    }

    /// Measures the same documents by rounds in turn, as many as there is time for by the clock.
    pub fn sweep(&mut self, documents: &[Document], time: Duration) {
        with_published(documents, |published| {
            let began = Instant::now();
            let mut lists = None;
            for round in 1..=MOST_ROUNDS {
                self.rust_round(&published);
                let lists = lists.get_or_insert_with(|| Lists::new(documents, self.findings));
                self.library_round(documents, lists);
                self.texts_round(documents, lists);
                if round >= FEWEST_ROUNDS && began.elapsed() >= time {
                    break;
                }
            }
        });
    }

    fn rust_round(&mut self, published: &Published<'_>) {
        if self.rust.is_wanted() {
            let (seconds, total) = published.run();
            self.findings = total;
            self.rust.add(seconds);
        }
    }

    fn library_round(&mut self, documents: &[Document], lists: &mut Lists) {
        if self.library.is_wanted() {
            let (seconds, total) = lists.run(documents);
            assert_eq!(total, self.findings, "as many as are owed");
            self.library.add(seconds);
        }
    }

    fn texts_round(&mut self, documents: &[Document], lists: &mut Lists) {
        let wanted = self.with_texts.as_mut().filter(|best| best.is_wanted());
        if let Some(best) = wanted {
            let (seconds, total) = lists.run_with_texts(documents);
            assert_eq!(total, self.findings, "as many as are owed");
            best.add(seconds);
        }
    }
}

#[cfg(test)]
mod tests {
    use super::*;
    use crate::samples::listing;

    #[test]
    fn a_sweep_measures_all_three() {
        let documents = [listing(), listing()];
        let mut measured = Measured::new(&documents, Texts::Made);
        measured.sweep(&documents, Duration::from_millis(10));
        assert_eq!((measured.nodes, measured.bytes), (18, 50));
        assert_eq!(measured.findings, 2);
        let with_texts = measured.with_texts.expect("texts are made");
        for best in [measured.library, with_texts, measured.rust] {
            assert!(best.rounds > 0 && best.seconds < ENOUGH);
        }
    }

    #[test]
    fn what_is_slow_has_few_rounds() {
        let mut best = Best::NONE;
        for seconds in [0.7, 0.6, 0.8] {
            assert!(best.is_wanted());
            best.add(seconds);
        }
        assert!(!best.is_wanted());
        assert_eq!((best.seconds, best.rounds), (0.6, 3));
    }
}
