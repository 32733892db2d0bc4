//! Compares the whole check, its texts, its tally and its mark with the published `validate`, with
//! the documents' refusals and with document 02's findings of code 35, on generated documents, every
//! small document and the documents by hand: answers, findings, texts and every element of every lent
//! list. Exit status 1 at the first difference, and where a form or a refusal was never reached.

use std::process::ExitCode;
use std::thread;
use std::time::Instant;

use oracle::arguments::numbers;
use oracle::document::{Document, kind};
use oracle::exhaustive::{
    every_label, every_nesting, every_pair_of_bases, every_pair_of_labels, every_pair_of_spans,
    every_row_of_milestones, every_tape,
};
use oracle::faults;
use oracle::generate::{generate, lengths, quoted};
use oracle::published::overflow_is_noticed;
use oracle::refusals::DEEPEST;
use oracle::samples::{self, Builder, entry};
use oracle::whole::{
    Comparison, Counts, Source, all_threads, compare_lists, compare_seeds, expect_all_reached,
    failure_message,
};

/// Stack of the thread that checks the deepest document.
const SMALL_STACK: usize = 256 * 1024;
/// The most nodes of a tape of which there are all.
const NODES: usize = 3;
/// Bases are compared by 8 bytes, labels by 64 nodes: the longest of which there are all pairs.
const LONGEST_BASE: usize = 34;
const LABELLED: usize = 130;
/// The longest row of milestones of which there are all.
const LONGEST_ROW: usize = 5;
/// The most symbols of a verse's label of which there are all.
const SYMBOLS: usize = 4;
/// For so many generated documents there is one more of many milestones.
const PER_QUOTED: u64 = 100;
/// So many generated documents reach every form and every refusal.
const REACHES_ALL: u64 = 200_000;

fn compare(comparison: &mut Comparison, document: &Document, seed: u64) -> Result<(), String> {
    let lengths = lengths(seed, document.node_count());
    let compared = comparison.compare(document, seed, lengths);
    compared.map_err(|why| failure_message(seed, document, &why))
}

/// The documents by hand, each with lists of many lengths.
fn by_hand() -> Result<Counts, String> {
    let mut comparison = Comparison::default();
    let read = samples::TEXTS.iter().map(|text| samples::read(text));
    let all = [samples::listing()].into_iter().chain(read);
    for document in all.chain(samples::shaped()) {
        for seed in 0..200 {
            compare(&mut comparison, &document, seed)?;
        }
    }
    Ok(comparison.counts)
}

/// These documents, the lists of each by how many were before it.
fn each(all: impl FnOnce(&mut dyn FnMut(&Document))) -> Result<Counts, String> {
    let mut comparison = Comparison::default();
    let mut first_error = Ok(());
    let mut visit = |document: &Document| {
        let seed = comparison.counts.documents;
        if first_error.is_ok() {
            first_error = compare(&mut comparison, document, seed);
        }
    };
    all(&mut visit);
    first_error.map(|()| comparison.counts)
}

/// Every small tape and every small nesting.
fn small(tokens: usize) -> Result<Counts, String> {
    each(|visit| {
        every_tape(NODES, &mut *visit);
        every_nesting(tokens, visit);
    })
}

/// Every pair of bases, of labels and of spans up to a length.
fn pairs() -> Result<Counts, String> {
    each(|visit| {
        every_pair_of_bases(LONGEST_BASE, &mut *visit);
        every_pair_of_labels(LABELLED, &mut *visit);
        every_pair_of_spans(visit);
    })
}

/// Every short row of milestones.
fn milestones() -> Result<Counts, String> {
    each(|visit| every_row_of_milestones(LONGEST_ROW, visit))
}

/// A verse of every short label.
fn labels() -> Result<Counts, String> {
    each(|visit| every_label(SYMBOLS, visit))
}

/// A verse inside as many markers as may nest, checked on a small stack.
fn deepest() -> Result<Counts, String> {
    let check = || {
        let mut builder = Builder::default();
        for _ in 0..DEEPEST {
            builder.open(0, "\\p");
        }
        builder.leaf(kind::VERSE, 1, "\\v 1", 1);
        let document = builder.under(&[entry("p", 3, 2), entry("v", 2, 0)]);
        let mut comparison = Comparison::default();
        for seed in 0..200 {
            compare(&mut comparison, &document, seed)?;
        }
        Ok(comparison.counts)
    };
    let thread = thread::Builder::new().stack_size(SMALL_STACK);
    let run = thread.spawn(check).map_err(|error| error.to_string())?;
    run.join().map_err(|_| "a worker panicked")?
}

/// The lists of so many generated documents, and nothing else of them.
fn lists_alone(seed: u64, lists: u64, threads: usize) -> Result<(), String> {
    let sum = compare_lists(generate, seed, lists, threads)?;
    let end = seed + lists - 1;
    println!("lists alone, seeds {seed} to {end}: {}", sum.line());
    print!("{}", sum.reached.report());
    Ok(())
}

fn run() -> Result<(), String> {
    if !overflow_is_noticed() {
        return Err("build with --profile compare: overflow must be noticed".to_string());
    }
    let (mut documents, mut seed, mut tokens, mut threads) = (100_000, 1, 2, all_threads());
    let mut lists = 0;
    numbers(&mut [
        ("--lists", &mut lists),
        ("--documents", &mut documents),
        ("--seed", &mut seed),
        ("--tokens", &mut tokens),
        ("--threads", &mut threads),
    ])?;
    faults::report_seeds();
    let began = Instant::now();
    if lists > 0 {
        return lists_alone(seed, lists, threads as usize);
    }
    println!("by hand: {}", by_hand()?.line());
    println!("deepest, on a stack of 256 KiB: {}", deepest()?.line());
    println!("every small document: {}", small(tokens as usize)?.line());
    println!("pairs of all lengths: {}", pairs()?.line());
    println!("short rows of milestones: {}", milestones()?.line());
    println!("short labels: {}", labels()?.line());
    let compare_some = |document: fn(u64) -> Document, count: u64| {
        let source = Source { document, lengths };
        compare_seeds(source, seed, count, threads as usize)
    };
    let many = compare_some(quoted, documents / PER_QUOTED)?;
    println!("many milestones: {}", many.line());
    let sum = compare_some(generate, documents)?;
    let end = seed + documents;
    println!("generated, seeds {seed} to {}: {}", end - 1, sum.line());
    print!("{}", sum.reached.report());
    expect_all_reached(&sum, REACHES_ALL)?;
    let seconds = began.elapsed().as_secs_f64();
    println!("no difference, {seconds:.0} seconds");
    Ok(())
}

fn main() -> ExitCode {
    match run() {
        Ok(()) => ExitCode::SUCCESS,
        Err(why) => {
            println!("{why}");
            ExitCode::FAILURE
        }
    }
}
