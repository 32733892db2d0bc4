// Included at the end of the published marker.rs in place of the list that its own build generates:
// the entries are those that the caller lends.

/// The published tables are empty here: `validate` reads the table that its cursor holds.
static V3_1_TABLE: MarkerTable = MarkerTable {
    entries: &[],
    index: |_| None,
};
static V3_2_TABLE: MarkerTable = MarkerTable {
    entries: &[],
    index: |_| None,
};

thread_local! {
    /// `MarkerTable::index` is a plain function pointer, so it finds the lent entries here.
    static CURRENT: std::cell::Cell<&'static [MarkerInfo]> = const { std::cell::Cell::new(&[]) };
}

/// First equal name first.
fn index_of_current(name: &str) -> Option<u16> {
    let place = CURRENT.get().iter().position(|info| info.name == name)?;
    u16::try_from(place).ok()
}

impl MarkerTable {
    /// Runs `work` under a table of these entries.
    pub(crate) fn with_lent<T>(
        entries: &'static [MarkerInfo],
        work: impl FnOnce(&MarkerTable) -> T,
    ) -> T {
        /// Forgets the entries also when `work` panics.
        struct Forget;
        impl Drop for Forget {
            fn drop(&mut self) {
                CURRENT.set(&[]);
            }
        }
        CURRENT.set(entries);
        let _forget = Forget;
        work(&MarkerTable {
            entries,
            index: index_of_current,
        })
    }
}
