//! Lists of any bytes: noise, documents with bytes and fields changed, and documents whose nodes lie anywhere in the source.

mod bytes;
mod fields;
mod free;

use crate::document::Document;
use crate::generate::generate;
use crate::refusals::MOST_NODES;
use crate::rng::Rng;
use crate::samples;

/// The lists of this seed, the same on every machine.
pub fn document(seed: u64) -> Document {
    let mut rng = Rng::new(seed.rotate_left(17));
    match rng.below(20) {
        0..2 => noise(&mut rng),
        2..10 => changed(&mut rng, generate(seed)),
        10 => {
            let whole = by_hand(&mut rng);
            changed(&mut rng, whole)
        }
        11..18 => free::document(&mut rng),
        _ => {
            let whole = free::document(&mut rng);
            changed(&mut rng, whole)
        }
    }
}

/// The lengths of the two working lists, in elements, for a tape of `n` nodes: any.
pub fn lengths(seed: u64, n: usize) -> (usize, usize) {
    let mut rng = Rng::new(!seed.rotate_left(17));
    let n = n.min(MOST_NODES);
    let mut around = |len: usize| match rng.below(24) {
        0 => 0,
        1 => len.saturating_sub(1),
        2 => rng.below(len + 1),
        3..12 => len,
        12..20 => len + 1,
        _ => len + rng.below(20),
    };
    (around(n), around(n))
}

fn noise(rng: &mut Rng) -> Document {
    let mut list = || {
        let len = match rng.below(3) {
            0 => 0,
            1 => rng.below(40),
            _ => rng.below(400),
        };
        bytes::any(rng, len)
    };
    let (table, source, tape) = (list(), list(), list());
    // Number 1 turns most noise back before the other numbers are tried, so that some of it has an empty table.
    match rng.below(3) {
        0 => Document {
            table,
            source,
            tape,
        },
        1 => Document {
            table: Vec::new(),
            source,
            tape,
        },
        _ => Document {
            table: Vec::new(),
            source: Vec::new(),
            tape,
        },
    }
}

fn by_hand(rng: &mut Rng) -> Document {
    match rng.below(8) {
        0 => samples::listing(),
        _ => samples::read(rng.pick(samples::TEXTS)),
    }
}

/// The document with one to four changes, or in one case of 16 with none.
fn changed(rng: &mut Rng, mut document: Document) -> Document {
    let changes = rng.weighted(&[1, 8, 4, 2, 1]);
    for _ in 0..changes {
        change(rng, &mut document);
    }
    document
}

fn change(rng: &mut Rng, document: &mut Document) {
    match rng.below(32) {
        0..3 => bytes::change(rng, &mut document.table),
        3..8 => bytes::change(rng, &mut document.source),
        8..10 => bytes::change(rng, &mut document.tape),
        10..12 => bytes::change_wholes(rng, &mut document.tape),
        12..14 => bytes::change_letter(rng, &mut document.source),
        14 if rng.one_in(8) => std::mem::swap(&mut document.table, &mut document.source),
        14 if rng.one_in(8) => std::mem::swap(&mut document.source, &mut document.tape),
        14 if rng.one_in(8) => std::mem::swap(&mut document.table, &mut document.tape),
        15 if rng.one_in(120) => bytes::lengthen(rng, &mut document.source),
        _ => fields::change(rng, document),
    }
}

#[cfg(test)]
mod tests {
    use super::*;
    use crate::published::try_validate;
    use crate::refusals::refusal;

    #[test]
    fn a_seed_gives_one_document() {
        for seed in [1, 2, 3, u64::MAX] {
            assert_eq!(document(seed), document(seed));
        }
    }

    #[test]
    fn lists_are_accepted_and_turned_back() {
        let mut refused = [0; 11];
        for seed in 0..20_000 {
            let document = document(seed);
            let (seen, opens) = lengths(seed, document.node_count());
            match refusal(&document, seen, opens) {
                Some((number, _)) => refused[number as usize] += 1,
                None => {
                    refused[0] += 1;
                    try_validate(&document).unwrap();
                }
            }
        }
        let rare = |&(number, &count): &(usize, &usize)| count == 0 && number != 2;
        let missing: Vec<_> = refused.iter().enumerate().filter(rare).collect();
        assert_eq!(missing, []);
        assert!((4_000..16_000).contains(&refused[0]), "{refused:?}");
    }

    #[test]
    fn working_lists_are_of_all_lengths_around_enough() {
        let all: Vec<(usize, usize)> = (0..1000).map(|seed| lengths(seed, 9)).collect();
        for wanted in [0, 8, 9, 10] {
            assert!(all.iter().any(|&(seen, _)| seen == wanted));
            assert!(all.iter().any(|&(_, opens)| opens == wanted));
        }
        // Each of them alone is too short by one entry now and then.
        assert!(all.iter().any(|&(seen, opens)| seen == 8 && opens >= 9));
        assert!(all.iter().any(|&(seen, opens)| seen >= 9 && opens == 8));
        let enough = all.iter().filter(|&&(seen, opens)| seen >= 9 && opens >= 9);
        assert!((600..950).contains(&enough.count()));
    }
}
