//! Counts by row.

use std::collections::BTreeMap;

/// How often each row has occurred.
pub struct Counts(BTreeMap<&'static str, u64>);

impl Counts {
    /// All rows, none of which has occurred.
    pub fn none(rows: impl Iterator<Item = &'static str>) -> Counts {
        Counts(rows.map(|row| (row, 0)).collect())
    }

    pub fn of(&self, row: &str) -> u64 {
        self.0[row]
    }

    pub fn count(&mut self, row: &str) {
        *self.0.get_mut(row).unwrap_or_else(|| panic!("no row for {row}")) += 1;
    }

    pub fn count_if(&mut self, row: &str, happened: bool) {
        if happened {
            self.count(row);
        }
    }
}
