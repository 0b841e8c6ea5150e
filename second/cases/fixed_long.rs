//! Cycles of thousands of slots: their lists, their first slots, and runs past their ends.

use super::draft::*;
use super::fixed_examples::from_fresh;
use super::reports;
use crate::rule;
use crate::table::Table;

/// How far a run goes on after the cycle's end.
const PAST: usize = 150;

/// Bags of such a run: some in its middle, and one across the cycle's end.
const BAG_SPANS: [u64; 8] = [0, 511, 512, 1024, 1500, 3000, 4000, 4100];

pub fn drafts() -> Vec<Draft> {
    let mut drafts = Vec::new();
    for table in [two_rows(), sixteen_rows(), table_of(&[(63, 1, 1), (64, 1, 1)])] {
        if let Ok(checked) = rule::check(&table) {
            let reports = reports::steady(&checked, checked.cycle + PAST);
            drafts.push(Draft::new(LIST).table(&table).room(checked.cycle));
            drafts.push(Draft::new(FIRSTS).table(&table).room(rule::first_slots(&checked).len()));
            drafts.push(from_fresh(RUN, &table, &reports));
            drafts.push(from_fresh(LOST, &table, &reports));
            drafts.push(from_fresh(LOST_FRESH, &table, &vec![0; checked.cycle + PAST]));
            drafts.push(from_fresh(BAGS, &table, &reports).bags(2, &BAG_SPANS));
        }
    }
    drafts
}

/// The longest cycle there is, from two rows.
fn two_rows() -> Table {
    table_of(&[(512, 200, 100), (4096, 1000, 300)])
}

/// And from sixteen, ties among them.
fn sixteen_rows() -> Table {
    let mut rows = Vec::new();
    for (period, p, a) in [(128, 20, 9), (256, 30, 11), (512, 70, 13), (1024, 90, 30), (2048, 250, 40)] {
        rows.extend([(period, p, a), (period, p + 1, a), (period, p, a + 1)]);
    }
    rows.push((4096, 2000, 100));
    table_of(&rows)
}
