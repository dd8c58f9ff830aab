//! Document 02, K7, by a plain scan over the cells: the sums over the records, and how far the totals beside the positions are from them.

use crate::tables::Tables;
use std::collections::BTreeMap;

/// A quantity and a value for each account and series.
pub type Totals = BTreeMap<(i64, i64), [i128; 2]>;

/// "the signed quantity and signed quantity times price over its records of status 0 or 3 (buys plus, sells minus)"
pub fn sums<'a>(records: impl Iterator<Item = &'a [i64]>) -> Totals {
    let mut sums = Totals::new();
    for row in records.filter(|row| row[4] == 0 || row[4] == 3) {
        let quantity = i128::from(if row[7] == 1 || row[7] == 3 { row[8] } else { -row[8] });
        let sum = sums.entry((row[5], row[6])).or_default();
        sum[0] += quantity;
        sum[1] += quantity * i128::from(row[9]);
    }
    sums
}

/// The totals, zeros where there is no row, less the sums over the records; only those that differ. True totals leave nothing.
pub fn untruth(tables: &Tables) -> Totals {
    let mut left: Totals = tables.position_rows().map(|row| ((row[0], row[1]), [row[5].into(), row[6].into()])).collect();
    for (key, [quantity, value]) in sums(tables.record_rows()) {
        let total = left.entry(key).or_default();
        total[0] -= quantity;
        total[1] -= value;
    }
    left.retain(|_, total| *total != [0, 0]);
    left
}
