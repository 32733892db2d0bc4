//! What `crates/trial_limits` prints of trial items 13 to 15, by the published code, the plain rule of code 35 and the plain
//! refusals.

use oracle::document::{Document, kind};
use oracle::refusals::{refusal, verses_visited};
use oracle::samples::{Builder, entry, node};
use oracle::unreadable::owed_findings;

/// Total and verses of an accepted document, or number and place.
fn outcome(document: &Document) -> Result<(usize, u64), (u32, u64)> {
    if let Some(refused) = refusal(document, usize::MAX, usize::MAX) {
        return Err(refused);
    }
    Ok((owed_findings(document).len(), verses_visited(document)))
}

fn flat(n: usize) -> Document {
    let mut document = Builder::default().under(&[entry("v", 2, 0)]);
    let mut nodes = vec![node(kind::VERSE, 0, 0, 0, 0); n];
    if let Some(root) = nodes.first_mut() {
        *root = node(kind::ROOT, 0, 0, 0, n as u32);
    }
    document.set_nodes(&nodes);
    document
}

fn nested(depth: usize) -> Document {
    let mut builder = Builder::default();
    for _ in 0..depth {
        builder.open(0, "");
    }
    builder.leaf(kind::VERSE, 1, "", 0);
    builder.under(&[entry("p", 3, 2), entry("v", 2, 0)])
}

fn markers(n: usize) -> Document {
    let mut builder = Builder::default();
    builder.open(511, "").end().open(512, "").end();
    builder.under(&vec![entry("p", 3, 2); n])
}

#[test]
fn nodes() {
    assert_eq!(outcome(&flat(0)), Err((4, 0)));
    assert_eq!(outcome(&flat(65_535)), Ok((65_537, 65_534)));
    assert_eq!(outcome(&flat(65_536)), Err((4, 0)));
}

#[test]
fn depth() {
    assert_eq!(outcome(&nested(64)), Ok((67, 1)));
    assert_eq!(outcome(&nested(65)), Err((8, 65)));
}

#[test]
fn table() {
    assert_eq!(outcome(&markers(512)), Ok((1, 0)));
    assert_eq!(outcome(&markers(513)), Err((1, 20_480)));
}
