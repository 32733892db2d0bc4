//! The quotation account.

use crate::account::{Account, has_crossing, mismatches, owed, pairs, summed, visits};
use crate::differ::agree;
use crate::document::Document;

/// What was paired in documents whose accounts were compared.
#[derive(Clone, Copy, Debug, Default, PartialEq, Eq)]
pub struct Paired {
    pub pairs: u64,
    /// Bases of a document with two pairs or more, and with both a pair and a mismatch.
    pub several: u64,
    pub partly: u64,
    /// Documents with two pairs that cross.
    pub crossing: u64,
}

impl Paired {
    pub fn add(&mut self, other: &Paired) {
        self.pairs += other.pairs;
        self.several += other.several;
        self.partly += other.partly;
        self.crossing += other.crossing;
    }
}

/// The account of an accepted document whose whole list the library wrote, and the mismatches themselves: by the sums alone
/// an end could take any start of its base.
pub fn same_account(document: &Document, list: &[u64]) -> Result<Paired, String> {
    let visits = visits(document);
    let (pairs, given) = (pairs(&visits), mismatches(list));
    let accounts = summed(document, &visits, &pairs, &given);
    for (base, account) in &accounts {
        if !account.balances() {
            return Err(format!("the account of {base:?} is out: {account:?}"));
        }
    }
    agree("mismatches", given, owed(&visits, &pairs))?;
    let bases = |test: fn(&&Account) -> bool| accounts.values().filter(test).count() as u64;
    Ok(Paired {
        pairs: pairs.len() as u64,
        several: bases(|of| of.pairs >= 2),
        partly: bases(|of| of.pairs > 0 && of.mismatches > 0),
        crossing: u64::from(has_crossing(&pairs)),
    })
}
