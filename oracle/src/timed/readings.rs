//! The library's reading of texts through its binding, in turn with the plain reader.

use std::hint::black_box;
use std::time::{Duration, Instant};

use harkoxin::raw::{self, NODE_BYTES, READ_WORDS};

use super::Timer;
use super::measured::{Best, FEWEST_ROUNDS, MOST_ROUNDS};
use crate::drafts::Draft;

/// What a reading says of a text: how many nodes it has, or the number that turns it back and its place.
type Said = Result<u64, (u64, u64)>;

/// What is measured of texts that are read one after another.
pub struct Readings {
    pub nodes: u64,
    pub bytes: usize,
    pub library: Best,
    pub rust: Best,
    /// What the plain reader says of each text.
    said: Vec<Said>,
}

/// Runs the plain reader over each text: the seconds of all together, and what it says. The time to free the nodes isn't counted.
fn run_plain(drafts: &[Draft]) -> (f64, Vec<Said>) {
    let (mut seconds, mut said) = (0.0, Vec::new());
    for draft in drafts {
        let timer = Timer::start();
        let read = black_box(black_box(draft).read(usize::MAX));
        seconds += timer.seconds();
        let nodes = read.map(|nodes| nodes.len() as u64);
        said.push(nodes.map_err(|(number, place)| (number.into(), place)));
    }
    (seconds, said)
}

/// The same by the library, over a list that is kept from one text to the next.
fn run_library(drafts: &[Draft], tape: &mut [u8]) -> (f64, Vec<Said>) {
    let (mut seconds, mut said) = (0.0, Vec::new());
    for Draft { table, text } in drafts {
        let mut answer = [0; READ_WORDS];
        let timer = Timer::start();
        raw::read(black_box(table), black_box(text), tape, &mut answer);
        seconds += timer.seconds();
        let [_, number, place, nodes] = black_box(answer);
        said.push(if number == 0 {
            Ok(nodes)
        } else {
            Err((number, place))
        });
    }
    (seconds, said)
}

impl Readings {
    /// Nothing measured yet of these texts.
    pub fn new(drafts: &[Draft]) -> Readings {
        let said = run_plain(drafts).1;
        Readings {
            nodes: said.iter().flatten().sum(),
            bytes: drafts.iter().map(|draft| draft.text.len()).sum(),
            library: Best::NONE,
            rust: Best::NONE,
            said,
        }
    }

    /// Measures the same texts by rounds in turn, as many as there is time for by the clock.
    pub fn sweep(&mut self, drafts: &[Draft], time: Duration) {
        let began = Instant::now();
        let most = self.said.iter().flatten().max().copied().unwrap_or(0);
        // Not of zeros, so that its memory is there before the first round.
        let mut tape = vec![1; NODE_BYTES * most as usize];
        for round in 1..=MOST_ROUNDS {
            if self.rust.is_wanted() {
                self.rust.add(run_plain(drafts).0);
            }
            if self.library.is_wanted() {
                let (seconds, said) = run_library(drafts, &mut tape);
                assert_eq!(said, self.said, "as the plain reader has it");
                self.library.add(seconds);
            }
            if round >= FEWEST_ROUNDS && began.elapsed() >= time {
                break;
            }
        }
    }
}

#[cfg(test)]
mod tests {
    use super::*;
    use crate::drafts::draft;

    #[test]
    fn a_sweep_measures_both() {
        let drafts: Vec<Draft> = (0..50).map(draft).collect();
        let mut readings = Readings::new(&drafts);
        readings.sweep(&drafts, Duration::from_millis(10));
        let bytes: usize = drafts.iter().map(|draft| draft.text.len()).sum();
        assert_eq!(readings.bytes, bytes);
        assert!(readings.nodes > 50);
        for best in [readings.library, readings.rust] {
            assert!(best.rounds > 0 && best.seconds < 1.0);
        }
    }
}
