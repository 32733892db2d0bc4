//! Changes to the fields of a node: lengths, links and spans at their borders, and extreme numbers.

use crate::document::{Document, Node};
use crate::rng::Rng;

/// Changes a field of a node, or of the root in one case of eight.
pub fn change(rng: &mut Rng, document: &mut Document) {
    let n = document.node_count();
    if n == 0 {
        return;
    }
    let place = if rng.one_in(8) { 0 } else { rng.below(n) };
    let node = document.node(place);
    let source = document.source.len() as u32;
    let changed = with_change(rng, node, source, n as u32);
    document.set_node(place, changed);
}

fn with_change(rng: &mut Rng, node: Node, source: u32, n: u32) -> Node {
    let mut node = node;
    match rng.below(12) {
        0..2 => node.kind = rng.below(10) as u8,
        2 => node.kind ^= 1 << rng.below(8),
        3..5 => node.marker = marker(rng, node.marker),
        5..7 => node.start = number(rng, node.start, source),
        7..9 => node.len = number(rng, node.len, source.wrapping_sub(node.start)),
        9 => node.len = (u32::MAX - node.start).wrapping_add(rng.below(3) as u32),
        _ => node.link = number(rng, node.link, n),
    }
    node
}

fn marker(rng: &mut Rng, marker: u16) -> u16 {
    match rng.below(4) {
        0 => marker ^ 1 << rng.below(16),
        1 => rng.pick(&[0, 511, 512, 513, 0x7FFF, u16::MAX]),
        _ => rng.below(80) as u16,
    }
}

/// The number beside what it was, beside a limit, or extreme.
fn number(rng: &mut Rng, number: u32, limit: u32) -> u32 {
    match rng.below(8) {
        0 => number.wrapping_add(1),
        1 => number.wrapping_sub(1),
        2 => limit.wrapping_sub(1),
        3 => limit,
        4 => limit.wrapping_add(1),
        5 => number ^ 1 << rng.below(32),
        6 => rng.below(limit as usize + 1) as u32,
        _ => rng.pick(&[
            0,
            1,
            65_535,
            65_536,
            1 << 20,
            1 << 31,
            u32::MAX - 1,
            u32::MAX,
        ]),
    }
}
