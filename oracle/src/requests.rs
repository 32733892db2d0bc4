//! Requests for texts, lists of findings, and counts for marks, that no check gave: those of a check with something changed,
//! and any words.

use crate::marks::MOST_COUNTED;
use crate::rng::Rng;
use crate::tallies::CODES;
use crate::texts::Request;

const WORDS: usize = 8;

/// The most records of a list that is made here.
const MOST_RECORDS: usize = 6;

/// Numbers at the borders of what is known: codes, letters, nodes, 32 and 64 bits.
const BORDERS: [u64; 26] = [
    0,
    1,
    2,
    3,
    4,
    5,
    34,
    35,
    36,
    37,
    63,
    64,
    97,
    123,
    126,
    127,
    128,
    255,
    256,
    65_535,
    65_536,
    u32::MAX as u64,
    1 << 32,
    1 << 63,
    u64::MAX - 1,
    u64::MAX,
];

/// A number at a border, beside the number `n` of nodes, or any.
fn border(rng: &mut Rng, n: u64) -> u64 {
    match rng.below(5) {
        0 => n.wrapping_sub(1),
        1 => n + rng.below(2) as u64,
        2 => rng.word(),
        _ => rng.pick(&BORDERS),
    }
}

fn changed(rng: &mut Rng, word: u64, n: u64) -> u64 {
    match rng.below(8) {
        0 => word.wrapping_add(1),
        1 => word.wrapping_sub(1),
        2 => word ^ 1 << rng.below(64),
        3 => word.wrapping_add(1 << 32),
        4..6 => rng.below(n as usize + 1) as u64,
        _ => border(rng, n),
    }
}

/// The request with a word or two changed, on a tape of `n` nodes.
pub fn damaged(rng: &mut Rng, request: Request, n: u64) -> Request {
    let mut request = request;
    for _ in 0..rng.from_to(1, 2) {
        let word = match rng.weighted(&[1, 1, 4, 2, 2]) {
            0 => &mut request.code,
            1 => &mut request.form,
            2 => &mut request.node,
            3 => &mut request.first,
            _ => &mut request.second,
        };
        *word = changed(rng, *word, n);
    }
    request
}

/// A code at either side of the last one.
fn last_code(rng: &mut Rng) -> u64 {
    (CODES - 2 + rng.below(4)) as u64
}

/// A request of any code that is known, or just isn't, about any node.
pub fn any(rng: &mut Rng, n: u64) -> Request {
    let code = match rng.below(10) {
        0..6 => rng.pick(&[5, 11, 13, 15, 16, 24, 32, 33, 34, 35, 35]),
        6 => last_code(rng),
        _ => rng.below(CODES + 2) as u64,
    };
    let node = |rng: &mut Rng| rng.below(n as usize + 1) as u64;
    Request {
        code,
        form: rng.weighted(&[70, 20, 6, 4]) as u64,
        node: node(rng),
        first: node(rng),
        second: match rng.percent(50) {
            true => rng.below(140) as u64,
            false => rng.pick(&[0, 1, 126, 127, 128, 255]),
        },
    }
}

/// A request for a finding of the list with something changed, or any request.
pub fn request(rng: &mut Rng, list: &[u64], n: u64) -> Request {
    let (records, _) = list.as_chunks();
    if records.is_empty() || rng.percent(40) {
        return any(rng, n);
    }
    let request = Request::from(&records[rng.below(records.len())]);
    damaged(rng, request, n)
}

/// A list of findings made of some of these, with something changed, or of any words.
pub fn damaged_list(rng: &mut Rng, list: &[u64], n: u64) -> Vec<u64> {
    let records = list.len() / WORDS;
    let mut made = if records == 0 || rng.one_in(4) {
        any_list(rng, n)
    } else {
        let first = rng.below(records);
        let end = (first + rng.from_to(1, MOST_RECORDS)).min(records);
        list[WORDS * first..WORDS * end].to_vec()
    };
    let records = made.len() / WORDS;
    if records > 0 && rng.one_in(4) {
        made[WORDS * rng.below(records) + 1] = last_code(rng);
    }
    for _ in 0..rng.below(3) {
        if !made.is_empty() {
            let place = rng.below(made.len());
            made[place] = changed(rng, made[place], n);
        }
    }
    if rng.one_in(4) {
        made.extend((0..rng.below(WORDS)).map(|_| rng.word()));
    }
    if rng.one_in(8) {
        made.truncate(rng.below(made.len() + 1));
    }
    made
}

/// A count for a mark: few, up to what is counted, at both sides of that, or any.
fn count(rng: &mut Rng) -> u64 {
    match rng.below(20) {
        0 => border(rng, MOST_COUNTED),
        1 => MOST_COUNTED - 1 + rng.below(3) as u64,
        2..10 => rng.below(100) as u64,
        _ => rng.below(MOST_COUNTED as usize + 1) as u64,
    }
}

/// Errors, warnings and verses; most of them have a mark, and of these many one above 0.
pub fn counts(rng: &mut Rng) -> [u64; 3] {
    let verses = count(rng);
    if rng.one_in(4) {
        return [count(rng), count(rng), verses];
    }
    // A loss is below 10,000 with fewer errors than four a verse, or fewer warnings than 13.
    let mut below = |a_verse: u64| {
        let limit = a_verse.saturating_mul(verses).min(MOST_COUNTED) + 1;
        rng.below(limit as usize) as u64
    };
    [below(4), below(13), verses]
}

fn any_list(rng: &mut Rng, n: u64) -> Vec<u64> {
    if rng.one_in(4) {
        return (0..rng.below(40)).map(|_| border(rng, n)).collect();
    }
    let records = 0..rng.below(MOST_RECORDS);
    records.flat_map(|_| record(rng, n)).collect()
}

fn record(rng: &mut Rng, n: u64) -> [u64; WORDS] {
    let Request {
        code,
        form,
        node,
        first,
        second,
    } = any(rng, n);
    let severity = rng.below(3) as u64;
    let (start, len) = (rng.word(), rng.word());
    [severity, code, start, len, node, form, first, second]
}

#[cfg(test)]
mod tests {
    use super::*;
    use crate::marks::mark;
    use crate::samples::listing;
    use crate::tallies::tally;
    use crate::texts::{Reader, requests};

    const FINDING: [u64; WORDS] = [1, 11, 16, 5, 6, 0, 1, 0];

    #[test]
    fn requests_have_a_text_and_have_none() {
        let document = listing();
        let reader = Reader::new(&document);
        let rng = &mut Rng::new(1);
        let has_text = |_: &i32| reader.text(request(rng, &FINDING, 9)).is_some();
        let with = (0..1000).filter(has_text).count();
        assert!((200..800).contains(&with), "{with}");
    }

    #[test]
    fn lists_are_tallied_and_turned_back() {
        let rng = &mut Rng::new(2);
        let lists: Vec<Vec<u64>> = (0..1000).map(|_| damaged_list(rng, &FINDING, 9)).collect();
        let good = lists.iter().filter(|list| tally(list).is_ok()).count();
        assert!((200..800).contains(&good), "{good}");
        let most = lists.iter().map(|list| requests(list).count()).max();
        assert!(most.unwrap() >= 4);
        let with_code = |code| {
            let has = |list: &&Vec<u64>| requests(list).any(|request| request.code == code);
            lists.iter().filter(has).count()
        };
        let counts = [34, 35, 36, 37].map(with_code);
        assert!(counts.iter().all(|&count| count > 40), "{counts:?}");
        assert!(lists.contains(&Vec::new()));
    }

    #[test]
    fn counts_are_marked_and_turned_back() {
        let rng = &mut Rng::new(3);
        let mut outcomes = [0; 4];
        for _ in 0..1000 {
            let [errors, warnings, verses] = counts(rng);
            let outcome = match mark(errors, warnings, verses) {
                Ok(marked) => usize::from(marked.mark == 0),
                Err((number, _)) => number as usize - 12,
            };
            outcomes[outcome] += 1;
        }
        let [above_0, at_0, by_14, by_15] = outcomes;
        assert!(above_0 > 200 && at_0 > 200, "{outcomes:?}");
        assert!(by_14 > 20 && by_15 > 2, "{outcomes:?}");
    }
}
