//! Compares the reading of texts with document 02's, plainly: every small text, large ones on a small stack, generated and damaged
//! ones, each through the binding and over lent lists, and the check of each with its own tape; of some the whole check of that
//! document with the published `validate`. Exit status 1 at the first difference, and where a number or something that a text can
//! show was never reached.

use std::process::ExitCode;
use std::thread;
use std::time::Instant;

use oracle::arguments::numbers;
use oracle::drafts::{Draft, climbs, draft, every_draft, large};
use oracle::faults;
use oracle::generate::lengths;
use oracle::published::overflow_is_noticed;
use oracle::reached::Function;
use oracle::whole::{Comparison, Counts, all_threads, share_out};

/// Stack of the thread that reads the large texts.
const SMALL_STACK: usize = 256 * 1024;
/// Of so many texts one has the whole check of its document compared.
const PER_CHECK: u64 = 16;
/// So many generated texts reach every number, and show all that a text can show.
const REACHES_ALL: u64 = 20_000;

/// The start of a text is enough to find it again.
const MOST_SHOWN: usize = 300;

fn failure_message(what: &str, draft: &Draft, why: &str) -> String {
    let shown = |bytes: &[u8]| {
        let part = &bytes[..bytes.len().min(MOST_SHOWN)];
        format!("{} bytes: {}", bytes.len(), part.escape_ascii())
    };
    let (table, text) = (shown(&draft.table), shown(&draft.text));
    format!("{what}: {why}\ntable, {table}\ntext, {text}")
}

/// A text, and of some the document that it is with its tape.
fn compare(comparison: &mut Comparison, draft: &Draft, seed: u64) -> Result<(), String> {
    let document = comparison.compare_text(draft, seed)?;
    match document.filter(|_| seed.is_multiple_of(PER_CHECK)) {
        Some(document) => {
            let lengths = lengths(seed, document.node_count());
            comparison.compare(&document, seed, lengths)
        }
        None => Ok(()),
    }
}

/// Every text of up to so many symbols. Each thread makes all of them, and compares its share.
fn small(symbols: usize, threads: usize) -> Result<Counts, String> {
    share_out((0, threads as u64), threads, |comparison, share| {
        for (place, draft) in every_draft(symbols).enumerate() {
            let place = place as u64;
            if place % threads as u64 == share {
                let compared = compare(comparison, &draft, place);
                compared.map_err(|why| failure_message("a small text", &draft, &why))?;
            }
        }
        Ok(())
    })
}

/// The nestings, and each large text with lists by so many seeds.
fn large_ones(seeds: u64) -> Result<Counts, String> {
    let mut comparison = Comparison::default();
    for (seed, draft) in climbs().enumerate() {
        let compared = comparison.compare_text(&draft, seed as u64);
        compared.map_err(|why| failure_message("a nesting", &draft, &why))?;
    }
    for large in large() {
        let draft = (large.draft)(1);
        for seed in 0..seeds {
            let compared = comparison.compare_text(&draft, seed);
            compared.map_err(|why| failure_message(large.name, &draft, &why))?;
        }
    }
    Ok(comparison.counts)
}

fn generated((first, end): (u64, u64), threads: usize) -> Result<Counts, String> {
    share_out((first, end), threads, |comparison, seed| {
        let draft = draft(seed);
        let compared = compare(comparison, &draft, seed);
        compared.map_err(|why| failure_message(&format!("seed {seed}"), &draft, &why))
    })
}

/// Prints what was never reached; an error where so many texts were compared that all should be.
fn expect_all(counts: &Counts, texts: u64) -> Result<(), String> {
    let mut unreached = counts.reached.unreached_of(Function::Read);
    unreached.extend(counts.shown.missing().into_iter().map(String::from));
    for one in &unreached {
        println!("never reached: {one}");
    }
    match unreached.is_empty() || texts < REACHES_ALL {
        true => Ok(()),
        false => Err("not everything was reached".to_string()),
    }
}

fn run() -> Result<(), String> {
    if !overflow_is_noticed() {
        return Err("build with --profile compare: overflow must be noticed".to_string());
    }
    let (mut texts, mut seed, mut symbols) = (100_000, 1, 4);
    let (mut lists, mut threads) = (1, all_threads());
    numbers(&mut [
        ("--texts", &mut texts),
        ("--seed", &mut seed),
        ("--symbols", &mut symbols),
        ("--lists", &mut lists),
        ("--threads", &mut threads),
    ])?;
    faults::report_seeds();
    let began = Instant::now();
    let (symbols, threads) = (symbols as usize, threads.max(1) as usize);
    // Beside the others, since it is one thread.
    let large = thread::Builder::new().stack_size(SMALL_STACK);
    let large = large.spawn(move || large_ones(lists));
    let large = large.map_err(|error| error.to_string())?;
    let small = small(symbols, threads)?;
    println!("up to {symbols} symbols: {}", small.line());
    let end = seed + texts;
    let sum = generated((seed, end), threads)?;
    println!("generated, seeds {seed} to {}: {}", end - 1, sum.line());
    println!("{}", sum.reached.answers_of(Function::Read));
    print!("{}", sum.shown.report());
    let large = large.join().map_err(|_| "a worker panicked")??;
    println!("large, on a stack of 256 KiB: {}", large.text_line());
    expect_all(&sum, texts)?;
    let seconds = began.elapsed().as_secs_f64();
    println!("no difference, {seconds:.0} seconds");
    Ok(())
}

fn main() -> ExitCode {
    match run() {
        Ok(()) => ExitCode::SUCCESS,
        Err(why) => {
            println!("{why}");
            ExitCode::FAILURE
        }
    }
}
