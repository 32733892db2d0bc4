//! Documents of milestones, many of a few bases: other documents seldom have two pairs of one base, or pairs that cross.

use crate::document::{Document, Entry, kind};
use crate::refusals::DEEPEST;
use crate::rng::Rng;
use crate::samples::{Builder, entry};

const TABLE: [Entry<'_>; 3] = [entry("qt-s", 6, 0), entry("p", 3, 2), entry("w", 4, 0)];
const MILESTONE: u16 = 0;
const PARAGRAPH: u16 = 1;
const CHARACTER: u16 = 2;
const UNKNOWN: u16 = 3;

/// Some begin others; the last three are just below, at and above 8 bytes, by which bases are compared.
const BASES: [&str; 7] = ["qt", "qt1", "zaln", "", "qt12345", "qt123456", "qt1234567"];
const MOST_ITEMS: usize = 90;

/// The document of this seed, the same on every machine.
pub fn quoted(seed: u64) -> Document {
    let mut rng = Rng::new(seed.rotate_left(7));
    let mut builder = Builder::default();
    let bases = &BASES[..rng.from_to(1, BASES.len())];
    let starts = rng.pick(&[30, 50, 50, 50, 70]);
    for _ in 0..rng.below(MOST_ITEMS) {
        let room = builder.open.len() < DEEPEST;
        match rng.below(24) {
            0 if room => {
                let around = rng.pick(&[PARAGRAPH, PARAGRAPH, CHARACTER, UNKNOWN]);
                builder.open(around, "\\p");
            }
            1..4 if !builder.open.is_empty() => {
                builder.end();
            }
            4 => {
                builder.text("a ");
            }
            _ if room => {
                let side = if rng.percent(starts) { "-s" } else { "-e" };
                let base = rng.pick(bases);
                milestone(&mut rng, &mut builder, &format!("\\{base}{side}"));
            }
            _ => {}
        }
    }
    builder.under(&TABLE)
}

/// A milestone, now and then of another category or none, with the span of an earlier marker, with an attribute, or around
/// what follows.
fn milestone(rng: &mut Rng, builder: &mut Builder, name: &str) {
    let marker = match rng.below(24) {
        0 => rng.pick(&[PARAGRAPH, CHARACTER]),
        1 => UNKNOWN,
        _ => MILESTONE,
    };
    let place = builder.nodes.len();
    builder.open(marker, name);
    if rng.one_in(8) {
        let other = builder.nodes[rng.from_to(1, place)];
        if other.kind == kind::MARKER_OPEN {
            builder.nodes[place].start = other.start;
            builder.nodes[place].len = other.len;
        }
    }
    if rng.one_in(8) {
        builder.leaf(kind::ATTRIBUTE, 0, "|who=\"a\"", 0);
    }
    if !rng.one_in(16) {
        builder.close(kind::MARKER_CLOSE, "\\*");
    }
}

#[cfg(test)]
mod tests {
    use super::*;
    use crate::account::{account, has_crossing, pairs, visits};
    use crate::refusals::refusal;

    #[test]
    fn most_have_two_pairs_of_one_base_and_half_pairs_that_cross() {
        let (mut several, mut crossing) = (0, 0);
        for seed in 0..1_000 {
            let document = quoted(seed);
            assert_eq!(refusal(&document, usize::MAX, usize::MAX), None);
            let accounts = account(&document, &[]);
            several += usize::from(accounts.values().any(|of| of.pairs >= 2));
            crossing += usize::from(has_crossing(&pairs(&visits(&document))));
        }
        assert!(several > 700 && crossing > 500, "{several}, {crossing}");
    }
}
