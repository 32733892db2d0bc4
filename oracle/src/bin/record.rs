//! Chooses documents and writes their answers to recorded/answers.bin; with --check it makes them
//! anew and compares.

use std::collections::{BTreeSet, HashMap};
use std::process::ExitCode;

use oracle::coverage::{Coverage, depth};
use oracle::document::Document;
use oracle::features::{FORM, Feature, REFUSAL, SHAPES, SURROUNDINGS, features};
use oracle::generate::generate;
use oracle::published::overflow_is_noticed;
use oracle::recorded::{Recorded, answer, write};
use oracle::refusals::DEEPEST;
use oracle::samples;

const FILE: &str = concat!(env!("CARGO_MANIFEST_DIR"), "/recorded/answers.bin");
/// Seeds 1 to this are candidates.
const SEEDS: u64 = 60_000;
/// Documents that take more bytes of the file are left out, so that there is room for many;
/// those that nest near the limit can't be as small as the others.
const LARGEST: usize = 1_300;
const LARGEST_DEEP: usize = 3_200;
const MOST_DOCUMENTS: usize = 400;
const MOST_BYTES: usize = 395_000;

struct Candidate {
    recorded: Recorded,
    features: Vec<Feature>,
    /// Bytes that it takes in the file.
    size: usize,
}

fn candidate(document: Document) -> Result<Option<Candidate>, String> {
    let Some(answer) = answer(&document)? else {
        return Ok(None);
    };
    let features = features(&document, &answer);
    let recorded = Recorded { document, answer };
    let size = write(std::slice::from_ref(&recorded)).len();
    Ok(Some(Candidate {
        recorded,
        features,
        size,
    }))
}

fn is_small(candidate: &Candidate) -> bool {
    let deep = depth(&candidate.recorded.document) + 4 > DEEPEST;
    candidate.size <= if deep { LARGEST_DEEP } else { LARGEST }
}

/// The documents by hand, which are all taken.
fn by_hand() -> Result<Vec<Candidate>, String> {
    let read = samples::TEXTS.iter().map(|text| samples::read(text));
    let mut list = Vec::new();
    let all = [samples::listing()].into_iter().chain(read);
    for document in all.chain(samples::shaped()) {
        list.extend(candidate(document)?);
    }
    Ok(list)
}

fn generated() -> Result<Vec<Candidate>, String> {
    let mut list = Vec::new();
    for seed in 1..=SEEDS {
        let document = generate(seed);
        if document.size() <= LARGEST_DEEP {
            list.extend(candidate(document)?.filter(is_small));
        }
    }
    Ok(list)
}

/// How many of the chosen documents shall show a feature.
fn wanted((about, _): Feature) -> usize {
    match about {
        FORM | REFUSAL => 5,
        SURROUNDINGS.. => 1,
        _ => 2,
    }
}

/// What the chosen documents show so far.
#[derive(Default)]
struct Choice {
    shown: HashMap<Feature, usize>,
    chosen: BTreeSet<usize>,
    bytes: usize,
    /// Bytes that may be used so far.
    room: usize,
}

impl Choice {
    /// How many features of a candidate, of those below `end`, are still wanted; large documents
    /// count less. At least 1 if there are any.
    fn gain(&self, candidate: &Candidate, end: u8) -> usize {
        let shown = |feature: &Feature| self.shown.get(feature).copied().unwrap_or(0);
        let features = candidate.features.iter();
        let count = features
            .filter(|feature| feature.0 < end && shown(feature) < wanted(**feature))
            .count();
        (count * 1000).div_ceil(candidate.size + 1000)
    }

    fn has_room(&self, candidate: &Candidate) -> bool {
        self.chosen.len() < MOST_DOCUMENTS && self.bytes + candidate.size <= self.room
    }

    fn take(&mut self, place: usize, candidate: &Candidate) {
        self.chosen.insert(place);
        self.bytes += candidate.size;
        for &feature in &candidate.features {
            *self.shown.entry(feature).or_default() += 1;
        }
    }

    /// Takes every candidate that adds at least so much.
    fn round(&mut self, candidates: &[Candidate], end: u8, least: usize) {
        for (place, candidate) in candidates.iter().enumerate() {
            let adds = self.gain(candidate, end) >= least && !self.chosen.contains(&place);
            if adds && self.has_room(candidate) {
                self.take(place, candidate);
            }
        }
    }
}

/// Documents that show much: each round requires less of what is still wanted. Features of which
/// there are few come first; each group has its share of the file.
fn choose(choice: &mut Choice, candidates: &[Candidate]) {
    for (end, share) in [(SURROUNDINGS, 65), (SHAPES, 90), (u8::MAX, 100)] {
        choice.room = MOST_BYTES * share / 100;
        for least in [40, 30, 24, 20, 16, 12, 10, 8, 6, 5, 4, 3, 2, 1] {
            choice.round(candidates, end, least);
        }
    }
}

fn made() -> Result<Vec<Recorded>, String> {
    let mut candidates = by_hand()?;
    let mut choice = Choice::default();
    for (place, candidate) in candidates.iter().enumerate() {
        choice.take(place, candidate);
    }
    candidates.append(&mut generated()?);
    choose(&mut choice, &candidates);
    let recorded = |&place: &usize| candidates[place].recorded.clone();
    Ok(choice.chosen.iter().map(recorded).collect())
}

/// The counts of a file's documents.
fn coverage(list: &[Recorded]) -> Result<Coverage, String> {
    let mut coverage = Coverage::default();
    for Recorded { document, .. } in list {
        let n = document.node_count();
        coverage.add(document, (n, n))?;
    }
    Ok(coverage)
}

fn run() -> Result<(), String> {
    if !overflow_is_noticed() {
        return Err("build with --profile compare: overflow must be noticed".to_string());
    }
    let given: Vec<String> = std::env::args().skip(1).collect();
    let list = made()?;
    let file = write(&list);
    match given.iter().map(String::as_str).collect::<Vec<_>>()[..] {
        [] => {
            print!("{}", coverage(&list)?.report());
            println!("{} bytes", file.len());
            std::fs::write(FILE, file).map_err(|error| format!("{FILE}: {error}"))
        }
        ["--check"] => match std::fs::read(FILE) {
            Ok(kept) if kept == file => Ok(()),
            Ok(_) => Err("recorded/answers.bin differs from what is made now".to_string()),
            Err(error) => Err(format!("{FILE}: {error}")),
        },
        _ => Err("usage: record [--check]".to_string()),
    }
}

fn main() -> ExitCode {
    match run() {
        Ok(()) => ExitCode::SUCCESS,
        Err(why) => {
            eprintln!("{why}");
            ExitCode::FAILURE
        }
    }
}
