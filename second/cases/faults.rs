//! Tables that are refused, each with the number and the row of its refusal, and tables that are accepted at a limit.

use super::draft::table_of;
use crate::table::{Row, Table};

/// A table and what it is refused by.
pub struct Fault {
    pub number: u8,
    pub row: u8,
    pub table: Table,
}

/// Three rows with a first, a middle and a last one, accepted with a cycle of 12.
pub const BASE: [(u16, u16, u16); 3] = [(4, 2, 1), (6, 2, 1), (12, 3, 1)];

/// Sixteen primes whose product needs 256 bits.
const PRIMES: [u16; 16] = [
    65_353, 65_357, 65_371, 65_381, 65_393, 65_407, 65_413, 65_419, 65_423, 65_437, 65_447, 65_449, 65_479, 65_497,
    65_519, 65_521,
];

/// Periods whose least common multiple is over 4,096, some of them 2^16, 2^32 or 2^64 and a little more, so that
/// narrow arithmetic would take it for a short cycle.
pub const OVER: [&[u16]; 12] = [
    &[4_097],
    &[17, 241],
    &[65_535],
    &[65_521, 65_535],
    &[65_534, 65_535],
    &[2, 32_769],
    &[3, 21_847],
    &[4, 19_825, 54_161],
    &[11, 6_323, 61_751],
    &[673, 853, 11_642, 51_739, 53_347],
    &[125, 8_089, 15_259, 27_869, 42_901],
    &PRIMES,
];

fn fault(number: u8, row: u8, rows: &[(u16, u16, u16)]) -> Fault {
    Fault { number, row, table: table_of(rows) }
}

/// The base table with one row changed, refused at that row.
fn changed(number: u8, row: usize, change: fn(&mut Row)) -> Fault {
    let mut table = table_of(&BASE);
    change(&mut table.rows[row - 1]);
    Fault { number, row: row as u8, table }
}

/// Every cause of refusals 1 to 7, each alone.
pub fn single() -> Vec<Fault> {
    let mut faults = counts();
    faults.extend(zeros());
    faults.extend(longs());
    faults.extend(orders());
    faults.extend(cycles());
    faults.extend(tights());
    faults
}

/// n of 0 and n over 16.
fn counts() -> Vec<Fault> {
    let with_n = |number, n| {
        let mut table = table_of(&BASE);
        table.n = n;
        Fault { number, row: 0, table }
    };
    vec![fault(1, 0, &[]), with_n(1, 0), with_n(2, 17), with_n(2, 18), with_n(2, 255)]
}

fn zeros() -> Vec<Fault> {
    let mut faults = Vec::new();
    for row in 1..=3 {
        faults.push(changed(3, row, |row| row.period = 0));
        faults.push(changed(3, row, |row| row.p = 0));
        faults.push(changed(3, row, |row| row.a = 0));
    }
    faults
}

fn longs() -> Vec<Fault> {
    let mut faults = Vec::new();
    for row in 1..=3 {
        faults.push(changed(4, row, |row| row.p = row.period + 1));
        faults.push(changed(4, row, |row| row.a = row.period + 1));
    }
    faults.push(changed(4, 2, |row| row.p = 65_535));
    faults
}

fn orders() -> Vec<Fault> {
    let mut last_of_sixteen = [(16, 1, 1); 16];
    last_of_sixteen[15].0 = 8;
    vec![
        fault(5, 2, &[(6, 2, 1), (5, 2, 1), (12, 3, 1)]),
        fault(5, 3, &[(4, 2, 1), (6, 2, 1), (5, 3, 1)]),
        fault(5, 3, &[(6, 2, 1), (6, 2, 1), (3, 3, 1)]),
        fault(5, 16, &last_of_sixteen),
    ]
}

fn cycles() -> Vec<Fault> {
    let mut faults = vec![fault(6, 0, &[(64, 1, 1), (65, 1, 1)])];
    for periods in OVER {
        let rows: Vec<(u16, u16, u16)> = periods.iter().map(|period| (*period, 1, 1)).collect();
        faults.push(fault(6, 0, &rows));
    }
    faults
}

fn tights() -> Vec<Fault> {
    let mut last_of_sixteen = [(16, 1, 1); 16];
    last_of_sixteen[15].2 = 2;
    vec![
        fault(7, 2, &[(4, 1, 2), (6, 1, 3)]),
        fault(7, 3, &[(4, 2, 1), (6, 2, 1), (12, 3, 8)]),
        fault(7, 3, &[(2, 1, 1), (2, 1, 1), (2, 1, 1)]),
        // Rows 2 and 3 are both short: "the first such row is named".
        fault(7, 2, &[(4, 1, 2), (6, 1, 3), (12, 1, 9)]),
        // Only the last job of row 2 is short.
        fault(7, 2, &[(5, 1, 2), (7, 1, 4)]),
        fault(7, 2, &[(1, 1, 1), (1, 1, 1)]),
        fault(7, 16, &last_of_sixteen),
    ]
}

/// Two refusals at once, with the one that comes first: "The first that applies is given".
pub fn double() -> Vec<Fault> {
    let mut many = table_of(&[(0, 0, 0)]);
    many.n = 17;
    vec![
        Fault { number: 2, row: 0, table: many },
        fault(3, 1, &[(4, 0, 5), (6, 1, 1)]),
        fault(3, 2, &[(4, 1, 1), (0, 1, 1), (6, 1, 1)]),
        fault(3, 2, &[(4, 1, 1), (3, 1, 0), (6, 1, 1)]),
        fault(4, 2, &[(4, 1, 1), (3, 4, 1), (6, 1, 1)]),
        fault(4, 1, &[(4, 5, 1), (6, 0, 1), (12, 1, 1)]),
        fault(4, 2, &[(4, 1, 1), (6, 1, 7), (5, 1, 1)]),
        fault(5, 2, &[(6, 1, 1), (4, 1, 1), (12, 0, 1)]),
        fault(5, 2, &[(6, 1, 1), (4, 1, 1), (12, 1, 13)]),
        fault(3, 2, &[(64, 1, 1), (65, 1, 0)]),
        fault(4, 2, &[(64, 1, 1), (65, 66, 1)]),
        fault(5, 2, &[(65, 1, 1), (64, 1, 1)]),
        fault(5, 3, &[(65, 1, 65), (66, 1, 66), (64, 1, 64)]),
        fault(6, 0, &[(64, 1, 64), (65, 1, 65)]),
    ]
}

/// Accepted tables: at a limit, fully used up, or with places past the rows that are ignored.
pub fn accepted() -> Vec<Table> {
    let mut ignored = table_of(&BASE);
    for place in ignored.rows.iter_mut().skip(3) {
        *place = Row { period: 3, p: 0, a: 65_535 };
    }
    vec![
        table_of(&BASE),
        ignored,
        table_of(&[(1, 1, 1)]),
        table_of(&[(2, 2, 1), (2, 1, 1)]),
        table_of(&[(2, 2, 1), (4, 4, 1), (8, 8, 2)]),
        table_of(&[(3, 1, 1), (3, 2, 1), (3, 3, 1)]),
        table_of(&[(4, 2, 1), (6, 2, 1), (12, 3, 7)]),
        table_of(&[(16, 1, 1); 16]),
        table_of(&[(60, 7, 5), (60, 1, 40), (90, 90, 1), (180, 2, 3)]),
        table_of(&[(4096, 4096, 4096)]),
        table_of(&[(64, 1, 1), (4096, 1, 4032)]),
    ]
}
