//! The markers of USFM 3.1, each under the name that a table holds for all its levels: the table that every book is measured
//! with.

use std::collections::HashMap;
use std::sync::LazyLock;

use crate::document::Entry;
use crate::parts::strip_level_suffix;

const IDENTIFICATION: usize = 0;
const CHAPTER: usize = 1;
const VERSE: usize = 2;
const PARAGRAPH: usize = 3;
const CHARACTER: usize = 4;
const NOTE: usize = 5;
const MILESTONE: usize = 6;
const OTHER: usize = 7;

const CONTENT: usize = 0;
const EXCLUDED: usize = 1;
const BOUNDARY: usize = 2;

/// Names that share a category and a role, parted by blanks.
type Group = (usize, usize, &'static str);

const GROUPS: [Group; 27] = [
    // Identification.
    (IDENTIFICATION, EXCLUDED, "id usfm ide sts rem h toc toca"),
    // Introductions.
    (PARAGRAPH, EXCLUDED, "imt imte is ip ipi im imi ipq imq ipr"),
    (PARAGRAPH, EXCLUDED, "iq ib ili iot io iex ie"),
    (CHARACTER, EXCLUDED, "ior iqt"),
    // Titles and headings.
    (PARAGRAPH, EXCLUDED, "mt mte ms mr s sr r sp sd"),
    (PARAGRAPH, CONTENT, "d"),
    // Chapters and verses.
    (CHAPTER, CONTENT, "c"),
    (PARAGRAPH, EXCLUDED, "cl cp cd"),
    (CHARACTER, EXCLUDED, "ca va vp"),
    (VERSE, CONTENT, "v"),
    // Paragraphs.
    (PARAGRAPH, BOUNDARY, "p m po pr cls pmo pm pmc pmr pi mi"),
    (PARAGRAPH, BOUNDARY, "nb pc ph phi ps psi pb b lit"),
    // Poetry.
    (PARAGRAPH, BOUNDARY, "q qr qc qm qd"),
    (PARAGRAPH, EXCLUDED, "qa"),
    (CHARACTER, CONTENT, "qs qac"),
    // Lists.
    (PARAGRAPH, BOUNDARY, "lh li lf lim"),
    (CHARACTER, CONTENT, "litl lik liv"),
    // Tables.
    (PARAGRAPH, BOUNDARY, "tr"),
    (CHARACTER, CONTENT, "th thr thc tc tcr tcc"),
    // Notes and cross references.
    (NOTE, EXCLUDED, "f fe ef x ex"),
    (CHARACTER, EXCLUDED, "fr ft fk fq fqa fl fw fp fv fdc fm"),
    (CHARACTER, EXCLUDED, "xo xop xk xq xta xot xnt xdc rq"),
    // Character styles.
    (
        CHARACTER,
        CONTENT,
        "xt ref jmp add addpn bk dc k nd ord pn png",
    ),
    (
        CHARACTER,
        CONTENT,
        "qt sig sls tl wj em bd it bdit no sc sup",
    ),
    (CHARACTER, CONTENT, "rb pro ndx w wa wg wh"),
    (CHARACTER, EXCLUDED, "fig cat efm"),
    // Sidebars and what stands around the text.
    (
        OTHER,
        EXCLUDED,
        "periph esb esbe pub pref intro conc glo idx maps cov spine pubinfo",
    ),
];

const MILESTONES: &str = "qt-s qt-e qt1-s qt1-e qt2-s qt2-e qt3-s qt3-e qt4-s qt4-e qt5-s qt5-e \
    ts ts-s ts-e t-s t-e zaln-s zaln-e";

/// The entries of the table.
pub static MARKERS: LazyLock<Vec<Entry<'static>>> = LazyLock::new(|| {
    let milestones: Group = (MILESTONE, CONTENT, MILESTONES);
    let mut list = Vec::new();
    for (category, role, names) in GROUPS.into_iter().chain([milestones]) {
        list.extend(names.split(' ').map(|name| Entry {
            name,
            category,
            role,
        }));
    }
    list
});

static PLACES: LazyLock<HashMap<&'static str, u16>> = LazyLock::new(|| {
    let places = MARKERS.iter().enumerate();
    places
        .map(|(place, entry)| (entry.name, place as u16))
        .collect()
});

/// The number of a marker as written: `q2` has that of `q`.
pub fn marker(name: &str) -> u16 {
    let place = PLACES
        .get(name)
        .or_else(|| PLACES.get(strip_level_suffix(name)));
    *place.unwrap_or_else(|| panic!("{name} isn't in the table"))
}

#[cfg(test)]
mod tests {
    use super::*;
    use crate::generate::STANDARD;

    #[test]
    fn no_name_stands_twice() {
        assert_eq!(PLACES.len(), MARKERS.len());
        assert!((150..=180).contains(&MARKERS.len()), "{}", MARKERS.len());
    }

    #[test]
    fn the_generators_markers_are_among_them() {
        for entry in STANDARD {
            assert!(MARKERS.contains(entry), "{entry:?}");
        }
    }

    #[test]
    fn a_level_is_no_part_of_the_name() {
        assert_eq!(marker("q2"), marker("q"));
        assert_eq!(MARKERS[marker("tcr1-2") as usize].name, "tcr");
        assert_eq!(MARKERS[marker("qt1-s") as usize].name, "qt1-s");
    }
}
