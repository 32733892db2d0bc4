//! Documents from a seed: text and tape written together as a parser would, then, part of the
//! time, filled with what the check never reads, and damaged.

pub(crate) mod attributes;
pub(crate) mod damage;
mod framed;
mod items;
pub(crate) mod labels;
mod layout;
pub(crate) mod names;
mod quoted;
pub(crate) mod tables;
pub(crate) mod words;

use crate::document::{Document, Node, kind};
use crate::rng::Rng;

pub use framed::partly_framed;
pub use quoted::quoted;
pub use tables::STANDARD;

/// The document of this seed, the same on every machine.
pub fn generate(seed: u64) -> Document {
    let mut rng = Rng::new(seed);
    let entries = tables::choose(&mut rng);
    let mut document = layout::document(&mut rng, entries);
    if rng.percent(40) {
        fill_unread(&mut rng, &mut document);
    }
    if rng.percent(35) {
        damage::damage(&mut rng, &mut document);
    }
    document
}

/// The lengths of the two working lists for a tape of `n` nodes: enough, or at times too few.
pub fn lengths(seed: u64, n: usize) -> (usize, usize) {
    let mut rng = Rng::new(!seed);
    let enough = (n + rng.below(3), n + rng.below(3));
    match rng.below(40) {
        0 => (n.saturating_sub(1), enough.1),
        1 => (enough.0, n.saturating_sub(1)),
        2 => (rng.below(n + 1), rng.below(n + 1)),
        3 => (0, 0),
        _ => enough,
    }
}

/// Overwrites fields that document 01 never reads.
fn fill_unread(rng: &mut Rng, document: &mut Document) {
    for place in 0..document.node_count() {
        let node = document.node(place);
        document.set_node(place, with_unread(rng, node));
    }
}

fn with_unread(rng: &mut Rng, node: Node) -> Node {
    let word = rng.word();
    let mut node = Node {
        flags: word as u8,
        ..node
    };
    match node.kind {
        kind::ROOT => {
            node.marker = (word >> 8) as u16;
            node.start = (word >> 24) as u32;
            node.len = rng.word() as u32;
        }
        kind::MARKER_CLOSE | kind::BLOCK_END | kind::TEXT | kind::ATTRIBUTE | kind::ERROR => {
            node.marker = (word >> 8) as u16;
            node.link = (word >> 24) as u32;
        }
        kind::VERSE => node.link = (word >> 24) as u32,
        _ => {}
    }
    node
}

#[cfg(test)]
mod tests {
    use super::*;
    use crate::published::try_validate;
    use crate::refusals::refusal;

    /// FNV-1a over all bytes of a document, lengths included.
    fn hash(document: &Document, mut hash: u64) -> u64 {
        for list in [&document.table, &document.source, &document.tape] {
            for &byte in (list.len() as u64).to_le_bytes().iter().chain(list) {
                hash = (hash ^ u64::from(byte)).wrapping_mul(0x0000_0100_0000_01B3);
            }
        }
        hash
    }

    #[test]
    fn the_first_documents_are_the_recorded_ones() {
        let sum = (1..=64).fold(0xCBF2_9CE4_8422_2325, |sum, seed| {
            hash(&generate(seed), sum)
        });
        assert_eq!(sum, 5262487386829267998);
    }

    #[test]
    fn lengths_are_enough_and_too_few() {
        let both = |n| move |&seed: &u64| lengths(seed, n).0 >= n && lengths(seed, n).1 >= n;
        let enough = (0..1000).filter(both(9)).count();
        assert!((800..990).contains(&enough), "{enough}");
    }

    #[test]
    fn the_first_documents_are_refused_or_validated() {
        let mut accepted = 0;
        for seed in 0..2000 {
            let document = generate(seed);
            let n = document.node_count();
            if refusal(&document, n, n).is_none() {
                accepted += 1;
                try_validate(&document).unwrap();
            }
        }
        assert!((1000..1900).contains(&accepted), "{accepted}");
    }
}
