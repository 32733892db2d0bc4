//! Generates documents, refuses each or makes the list that is owed for it, and prints what they reached.

use std::process::ExitCode;
use std::time::Instant;

use oracle::arguments::numbers;
use oracle::coverage::Coverage;
use oracle::generate::{generate, lengths};
use oracle::published::overflow_is_noticed;

fn run() -> Result<bool, String> {
    if !overflow_is_noticed() {
        return Err("build with --profile compare: overflow must be noticed".to_string());
    }
    let (mut documents, mut seed) = (100_000, 1);
    numbers(&mut [("--documents", &mut documents), ("--seed", &mut seed)])?;
    let began = Instant::now();
    let mut coverage = Coverage::default();
    for seed in (0..documents).map(|more| seed.wrapping_add(more)) {
        let document = generate(seed);
        let lengths = lengths(seed, document.node_count());
        coverage
            .add(&document, lengths)
            .map_err(|why| format!("seed {seed}: {why}"))?;
    }
    let seconds = began.elapsed().as_secs_f64();
    print!("{}", coverage.report());
    println!(
        "{seconds:.1} seconds, {:.0} documents a second",
        documents as f64 / seconds
    );
    let unreached = coverage.unreached();
    for one in &unreached {
        println!("never reached: {one}");
    }
    Ok(unreached.is_empty())
}

fn main() -> ExitCode {
    match run() {
        Ok(true) => ExitCode::SUCCESS,
        Ok(false) => ExitCode::FAILURE,
        Err(why) => {
            eprintln!("{why}");
            ExitCode::FAILURE
        }
    }
}
