//! Tables of periodic tasks, and the refusals 1 to 6.

use crate::refusal::{self, Refusal};

/// "A table has 1 to 16 rows."
pub const MOST_ROWS: usize = 16;

/// "The cycle is the least common multiple of the periods and is at most 4,096."
pub const LONGEST_CYCLE: u64 = 4096;

#[derive(Clone, Copy, Debug, Default, PartialEq, Eq)]
pub struct Row {
    pub period: u16,
    pub p: u16,
    pub a: u16,
}

/// A table as it is handed in: n may be anything, and the places past the n rows are ignored.
#[derive(Clone, Debug, PartialEq, Eq)]
pub struct Table {
    pub n: u8,
    pub rows: [Row; MOST_ROWS],
}

/// The rows that count, once refusals 1 to 6 are out of the way, with their cycle.
pub struct Checked {
    pub rows: Vec<Row>,
    pub cycle: usize,
}

impl Table {
    /// "A refused reading hands back a table of zeros with n 0."
    pub fn zeros() -> Table {
        Table { n: 0, rows: [Row::default(); MOST_ROWS] }
    }

    /// A table of these rows, with zeros in the places past them. Rows past the sixteenth have no place.
    pub fn of(rows: &[Row]) -> Table {
        let mut table = Table::zeros();
        for (place, row) in table.rows.iter_mut().zip(rows) {
            *place = *row;
            table.n += 1;
        }
        table
    }

    /// The rows that n says are there, at most as many as there are places.
    pub fn used(&self) -> &[Row] {
        let n = usize::from(self.n).min(MOST_ROWS);
        &self.rows[..n]
    }
}

/// "(x, 0) gives x, (x, y) gives the answer for (y, x mod y)."
pub fn gcd(x: u64, y: u64) -> u64 {
    if y == 0 {
        x
    } else {
        gcd(y, x % y)
    }
}

/// Refusals 1 to 6: "A table given as rows starts at 1", then "rows from the first, in each row 3, 4, 5, then 6".
pub fn check_rows(table: &Table) -> Result<Checked, Refusal> {
    if table.n == 0 {
        return Err(refusal::EMPTY);
    }
    if usize::from(table.n) > MOST_ROWS {
        return Err(refusal::MANY);
    }
    let rows = table.used().to_vec();
    let mut period_before = 0;
    for (index, row) in rows.iter().enumerate() {
        check_row(row, index as u8 + 1, period_before)?;
        period_before = row.period;
    }
    let cycle = cycle(&rows)?;
    Ok(Checked { rows, cycle })
}

/// Refusals 3, 4 and 5 of one row. Before row 1 stands no period, so a 0 there keeps it from refusal 5.
fn check_row(row: &Row, name: u8, period_before: u16) -> Result<(), Refusal> {
    if row.period == 0 || row.p == 0 || row.a == 0 {
        return Err(refusal::zero(name));
    }
    if row.p > row.period || row.a > row.period {
        return Err(refusal::long(name));
    }
    if row.period < period_before {
        return Err(refusal::order(name));
    }
    Ok(())
}

/// The cycle, or refusal 6. A least common multiple only grows from row to row, so the first one over the limit
/// decides, and a number of at most 4,096 times a period stays far below 2^64.
fn cycle(rows: &[Row]) -> Result<usize, Refusal> {
    let mut cycle = 1;
    for row in rows {
        let period = u64::from(row.period);
        cycle = cycle / gcd(cycle, period) * period;
        if cycle > LONGEST_CYCLE {
            return Err(refusal::CYCLE);
        }
    }
    Ok(cycle as usize)
}
