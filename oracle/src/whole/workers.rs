//! Numbers, most of them seeds, shared out among threads.

use std::sync::atomic::{AtomicBool, Ordering};
use std::thread;

use super::{Comparison, Counts};
use crate::document::Document;

/// Where documents come from: a seed's document, and the lengths of its working lists, given its number of nodes.
#[derive(Clone, Copy)]
pub struct Source {
    pub document: fn(u64) -> Document,
    pub lengths: fn(u64, usize) -> (usize, usize),
}

/// A long run says at each such number how far it is.
const PROGRESS: u64 = 1_000_000;

/// What went wrong with a document.
pub fn failure_message(seed: u64, document: &Document, why: &str) -> String {
    format!("seed {seed}: {why}\n{}", document.to_hex())
}

/// Has the numbers of a range compared by so many threads, each of which takes every so many of them; ends at the first
/// difference.
pub fn share_out(
    (first, end): (u64, u64),
    threads: usize,
    compare: impl Fn(&mut Comparison, u64) -> Result<(), String> + Sync,
) -> Result<Counts, String> {
    let threads = threads.max(1);
    let stop = AtomicBool::new(false);
    let some = |share: u64| {
        let mut comparison = Comparison::default();
        for number in (first + share..end).step_by(threads) {
            if stop.load(Ordering::Relaxed) {
                break;
            }
            if let Err(why) = compare(&mut comparison, number) {
                stop.store(true, Ordering::Relaxed);
                return Err(why);
            }
            if number > 0 && number.is_multiple_of(PROGRESS) {
                println!("at {number}, no difference so far");
            }
        }
        Ok(comparison.counts)
    };
    thread::scope(|scope| {
        let some = &some;
        let start = |share| scope.spawn(move || some(share));
        let workers: Vec<_> = (0..threads as u64).map(start).collect();
        let mut sum = Ok(Counts::default());
        for worker in workers {
            let counts = worker.join().map_err(|_| "a worker panicked".to_string());
            sum = sum.and_then(|mut sum: Counts| {
                sum.add(&counts.and_then(|counts| counts)?);
                Ok(sum)
            });
        }
        sum
    })
}

/// Compares the documents of so many seeds by so many threads; ends at the first difference.
pub fn compare_seeds(
    source: Source,
    first: u64,
    seeds: u64,
    threads: usize,
) -> Result<Counts, String> {
    share_out((first, first + seeds), threads, |comparison, seed| {
        let document = (source.document)(seed);
        let lengths = (source.lengths)(seed, document.node_count());
        let compared = comparison.compare(&document, seed, lengths);
        compared.map_err(|why| failure_message(seed, &document, &why))
    })
}

/// Compares the list alone of the documents of so many seeds; ends at the first difference.
pub fn compare_lists(
    document: fn(u64) -> Document,
    first: u64,
    seeds: u64,
    threads: usize,
) -> Result<Counts, String> {
    share_out((first, first + seeds), threads, |comparison, seed| {
        let document = document(seed);
        let compared = comparison.compare_list(&document, seed);
        compared.map_err(|why| failure_message(seed, &document, &why))
    })
}

/// As many threads as run at the same time here.
pub fn all_threads() -> u64 {
    thread::available_parallelism().map_or(1, |count| count.get() as u64)
}

/// Prints what was never reached; an error where so many documents were compared that all should be.
pub fn expect_all_reached(counts: &Counts, enough: u64) -> Result<(), String> {
    let unreached = counts.reached.unreached();
    for one in &unreached {
        println!("never reached: {one}");
    }
    match unreached.is_empty() || counts.documents < enough {
        true => Ok(()),
        false => Err("not everything was reached".to_string()),
    }
}
