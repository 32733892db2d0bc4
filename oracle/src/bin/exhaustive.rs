//! Refuses every small document or makes the list that is owed for it, and prints what they reached.

use std::process::ExitCode;
use std::time::Instant;

use oracle::coverage::Coverage;
use oracle::document::Document;
use oracle::exhaustive::{every_label, every_nesting, every_tape};
use oracle::published::overflow_is_noticed;

/// The most nodes of a tape.
const NODES: usize = 4;
/// The most symbols of a verse's label.
const SYMBOLS: usize = 4;

fn counted(name: &str, each: impl FnOnce(&mut dyn FnMut(&Document))) -> Result<(), String> {
    let began = Instant::now();
    let mut coverage = Coverage::default();
    let mut first_error = Ok(());
    each(&mut |document| {
        let n = document.node_count();
        let added = coverage.add(document, (n, n));
        if first_error.is_ok() {
            first_error = added;
        }
    });
    println!("{name}: {:.1} seconds", began.elapsed().as_secs_f64());
    println!("{}", coverage.report());
    first_error
}

fn run() -> Result<(), String> {
    if !overflow_is_noticed() {
        return Err("build with --profile compare: overflow must be noticed".to_string());
    }
    let tokens = match std::env::args().nth(1) {
        None => 4,
        Some(text) => text.parse().map_err(|_| "usage: exhaustive [TOKENS]")?,
    };
    counted("every tape", |visit| every_tape(NODES, visit))?;
    counted("every nesting", |visit| every_nesting(tokens, visit))?;
    counted("every label", |visit| every_label(SYMBOLS, visit))
}

fn main() -> ExitCode {
    match run() {
        Ok(()) => ExitCode::SUCCESS,
        Err(why) => {
            eprintln!("{why}");
            ExitCode::FAILURE
        }
    }
}
