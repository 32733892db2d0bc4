//! Lends any bytes as the lists of the check, of its texts and of its tally: noise, changed
//! documents, documents whose nodes lie anywhere. Compares each answer and every byte that must
//! be untouched, as `compare_check` does. Exit status 1 at the first difference, by a read or a
//! write outside of what was lent, and where a form or a refusal was never reached.

use std::process::ExitCode;
use std::time::Instant;

use oracle::arguments::numbers;
use oracle::faults;
use oracle::fuzz;
use oracle::published::overflow_is_noticed;
use oracle::whole::{Source, all_threads, compare_seeds, expect_all_reached};

/// So many documents reach every form and every refusal.
const REACHES_ALL: u64 = 200_000;

fn run() -> Result<(), String> {
    if !overflow_is_noticed() {
        return Err("build with --profile compare: overflow must be noticed".to_string());
    }
    let (mut documents, mut seed, mut threads) = (100_000, 1, all_threads());
    numbers(&mut [
        ("--documents", &mut documents),
        ("--seed", &mut seed),
        ("--threads", &mut threads),
    ])?;
    faults::report_seeds();
    let began = Instant::now();
    let source = Source {
        document: fuzz::document,
        lengths: fuzz::lengths,
    };
    let sum = compare_seeds(source, seed, documents, threads as usize)?;
    println!("seeds {seed} to {}: {}", seed + documents - 1, sum.line());
    print!("{}", sum.reached.report());
    expect_all_reached(&sum, REACHES_ALL)?;
    let seconds = began.elapsed().as_secs_f64();
    println!("no difference, {seconds:.0} seconds");
    Ok(())
}

fn main() -> ExitCode {
    match run() {
        Ok(()) => ExitCode::SUCCESS,
        Err(why) => {
            println!("{why}");
            ExitCode::FAILURE
        }
    }
}
