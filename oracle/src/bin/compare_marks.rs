//! Compares marks with document 02's, plainly: counts at their borders, small ones, those with a loss near 10,000, the largest
//! ones, and generated ones, each through the binding and over a lent list. Exit status 1 at the first difference.

use std::process::ExitCode;
use std::time::Instant;

use oracle::arguments::numbers;
use oracle::faults;
use oracle::marks::MOST_COUNTED;
use oracle::reached::Function;
use oracle::requests::counts;
use oracle::rng::Rng;
use oracle::whole::Comparison;

/// Counts at the borders of what is counted, of 32 and 64 bits, and where products come back to small numbers in 64 bits.
const BORDERS: [u64; 24] = [
    0,
    1,
    2,
    3,
    4,
    5,
    749,
    750,
    2_500,
    10_000,
    MOST_COUNTED - 2,
    MOST_COUNTED - 1,
    MOST_COUNTED,
    MOST_COUNTED + 1,
    MOST_COUNTED + 2,
    u32::MAX as u64,
    1 << 32,
    u64::MAX / 2_500,
    u64::MAX / 2_500 + 1,
    u64::MAX / 750,
    u64::MAX / 750 + 1,
    1 << 63,
    u64::MAX - 1,
    u64::MAX,
];

/// Of small counts there are all: errors and warnings below the first number, verses below the second.
const SMALL: (u64, u64) = (40, 400);

/// Marks one after another, their lists by one seed.
struct Marks {
    comparison: Comparison,
    rng: Rng,
}

impl Marks {
    fn one(&mut self, errors: u64, warnings: u64, verses: u64) -> Result<(), String> {
        let counts = [errors, warnings, verses];
        self.comparison.mark(counts, &mut self.rng)
    }

    /// Every three of the borders.
    fn borders(&mut self) -> Result<(), String> {
        for errors in BORDERS {
            for warnings in BORDERS {
                for verses in BORDERS {
                    self.one(errors, warnings, verses)?;
                }
            }
        }
        Ok(())
    }

    fn small(&mut self) -> Result<(), String> {
        let (findings, most_verses) = SMALL;
        for errors in 0..findings {
            for warnings in 0..findings {
                for verses in 0..most_verses {
                    self.one(errors, warnings, verses)?;
                }
            }
        }
        Ok(())
    }

    /// For each number of verses the most findings; as many errors as take off 10,000, or the most, with warnings for the
    /// rest, and one finding more or less.
    fn each_number_of_verses(&mut self) -> Result<(), String> {
        for verses in 1..=MOST_COUNTED {
            self.one(MOST_COUNTED, MOST_COUNTED, verses)?;
            let errors = MOST_COUNTED.min(4 * verses);
            let rest = 10_000 * verses - 2_500 * errors;
            let warnings = MOST_COUNTED.min(rest / 750);
            self.one(errors, warnings, verses)?;
            self.one(errors - 1, warnings, verses)?;
            self.one(errors, warnings + 1, verses)?;
        }
        Ok(())
    }

    fn generated(&mut self, documents: u64) -> Result<(), String> {
        for _ in 0..documents {
            let [errors, warnings, verses] = counts(&mut self.rng);
            self.one(errors, warnings, verses)?;
        }
        Ok(())
    }
}

fn run() -> Result<(), String> {
    let (mut documents, mut seed) = (1_000_000, 1);
    numbers(&mut [("--counts", &mut documents), ("--seed", &mut seed)])?;
    faults::report_seeds();
    faults::at_seed(seed);
    let began = Instant::now();
    let mut marks = Marks {
        comparison: Comparison::default(),
        rng: Rng::new(seed),
    };
    marks.borders()?;
    marks.small()?;
    marks.each_number_of_verses()?;
    marks.generated(documents)?;
    let answers = marks.comparison.counts.reached.answers_of(Function::Mark);
    let seconds = began.elapsed().as_secs_f64();
    println!("{answers}; {documents} of these generated from seed {seed}");
    println!("no difference, {seconds:.0} seconds");
    Ok(())
}

fn main() -> ExitCode {
    match run() {
        Ok(()) => ExitCode::SUCCESS,
        Err(why) => {
            println!("{why}");
            ExitCode::FAILURE
        }
    }
}
