//! Document 01's tally with number 11, plainly, with the counts of document 02.

const WORDS: usize = 8;
/// "Tally has 36 counts, number 11 starts above code 35"
pub const CODES: usize = 36;

/// The counts by code of a list of findings, or the place that number 11 gives.
pub fn tally(list: &[u64]) -> Result<[u64; CODES], u64> {
    let mut counts = [0; CODES];
    for (place, record) in list.chunks(WORDS).enumerate() {
        let good = record.len() == WORDS && record[0] <= 2 && record[1] < CODES as u64;
        if !good {
            return Err(place as u64);
        }
        counts[record[1] as usize] += 1;
    }
    Ok(counts)
}

#[cfg(test)]
mod tests {
    use super::*;

    fn list(heads: &[[u64; 2]]) -> Vec<u64> {
        heads
            .iter()
            .flat_map(|&[severity, code]| [severity, code, 9, 9, 9, 9, 9, 9])
            .collect()
    }

    #[test]
    fn good_lists_are_counted() {
        assert_eq!(tally(&[]), Ok([0; CODES]));
        let counts = tally(&list(&[[0, 34], [2, 0], [1, 35], [1, 34]])).unwrap();
        assert_eq!([counts[0], counts[34], counts[35]], [1, 2, 1]);
        assert_eq!(counts.iter().sum::<u64>(), 4);
    }

    #[test]
    fn the_first_bad_record_is_the_place() {
        let good = [1, 11];
        for bad in [[3, 11], [1, 36], [u64::MAX, 0], [0, u64::MAX]] {
            assert_eq!(tally(&list(&[good, bad, good, bad])), Err(1));
        }
        let two = list(&[good, good]);
        for rest in 1..8 {
            assert_eq!(tally(&two[..8 + rest]), Err(1));
        }
        let bad = list(&[good, [3, 0], good]);
        assert_eq!(tally(&bad[..20]), Err(1));
    }
}
