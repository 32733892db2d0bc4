//! Changes to a list of bytes.

use std::ops::Range;

use crate::document::NODE_BYTES;
use crate::refusals::LARGEST_SOURCE;
use crate::rng::Rng;

pub fn any(rng: &mut Rng, len: usize) -> Vec<u8> {
    (0..len).map(|_| rng.word() as u8).collect()
}

/// A part of a list, mostly a short one.
fn part(rng: &mut Rng, len: usize) -> Range<usize> {
    let start = rng.below(len + 1);
    let most = match rng.below(4) {
        0 => len - start,
        _ => (len - start).min(20),
    };
    start..start + rng.below(most + 1)
}

/// Bits turned, parts taken out, put in, repeated, or put in another place.
pub fn change(rng: &mut Rng, list: &mut Vec<u8>) {
    let part = part(rng, list.len());
    let place = rng.below(list.len() + 1);
    match rng.below(9) {
        0 | 1 => turn_bits(rng, list),
        2 => list.truncate(place),
        3 => drop(list.drain(..place)),
        4 => drop(list.drain(part)),
        5 => {
            let copy = list[part].to_vec();
            drop(list.splice(place..place, copy));
        }
        6 => {
            let moved: Vec<u8> = list.drain(part).collect();
            let place = rng.below(list.len() + 1);
            drop(list.splice(place..place, moved));
        }
        7 => {
            let len = rng.below(9);
            let more = any(rng, len);
            drop(list.splice(place..place, more));
        }
        _ => {
            let other = any(rng, part.len());
            list[part].copy_from_slice(&other);
        }
    }
}

fn turn_bits(rng: &mut Rng, list: &mut [u8]) {
    for _ in 0..rng.weighted(&[0, 6, 2, 1]) {
        if !list.is_empty() {
            let place = rng.below(list.len());
            list[place] ^= 1 << rng.below(8);
        }
    }
}

/// Whole nodes taken out, repeated, or exchanged.
pub fn change_wholes(rng: &mut Rng, tape: &mut Vec<u8>) {
    let nodes = tape.len() / NODE_BYTES;
    if nodes == 0 {
        return;
    }
    let (this, other) = (rng.below(nodes), rng.below(nodes));
    let bytes = |node: usize| NODE_BYTES * node..NODE_BYTES * (node + 1);
    match rng.below(3) {
        0 => drop(tape.drain(bytes(this))),
        1 => {
            let copy = tape[bytes(this)].to_vec();
            let place = NODE_BYTES * other;
            drop(tape.splice(place..place, copy));
        }
        _ => {
            let copy = tape[bytes(this)].to_vec();
            tape.copy_within(bytes(other), NODE_BYTES * this);
            tape[bytes(other)].copy_from_slice(&copy);
        }
    }
}

/// One letter for another of the same length: the spans stay good.
pub fn change_letter(rng: &mut Rng, source: &mut [u8]) {
    const OTHERS: &[u8] = b"\\ \n|=\"*+-0123456789abcevpst";
    if source.is_empty() {
        return;
    }
    let place = rng.below(source.len());
    if source[place].is_ascii() {
        source[place] = rng.pick(OTHERS);
    }
}

/// The source over and over, up to the most bytes that it may have, or one more, or less.
pub fn lengthen(rng: &mut Rng, source: &mut Vec<u8>) {
    if source.is_empty() {
        source.push(b'0');
    }
    let len = match rng.below(4) {
        0 => LARGEST_SOURCE,
        1 => LARGEST_SOURCE + 1,
        _ => 70_000,
    };
    *source = source.iter().copied().cycle().take(len).collect();
}

#[cfg(test)]
mod tests {
    use super::*;

    #[test]
    fn an_empty_list_takes_every_change() {
        let rng = &mut Rng::new(5);
        for _ in 0..200 {
            change(rng, &mut Vec::new());
            change_wholes(rng, &mut vec![0; 15]);
            change_letter(rng, &mut []);
        }
    }

    #[test]
    fn lists_grow_shrink_and_stay() {
        let rng = &mut Rng::new(6);
        let mut lens = [0; 3];
        for _ in 0..1000 {
            let mut list = any(rng, 50);
            change(rng, &mut list);
            lens[(list.len().cmp(&50) as i8 + 1) as usize] += 1;
        }
        assert!(lens.iter().all(|&count| count > 50), "{lens:?}");
    }
}
