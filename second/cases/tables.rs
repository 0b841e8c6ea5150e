//! Random tables, accepted ones and ones refused by each of 1 to 7.

use super::faults;
use crate::numbers::Numbers;
use crate::rule;
use crate::table::{self, gcd, Checked, Row, Table, LONGEST_CYCLE, MOST_ROWS};

/// Numbers with many divisors, and some with few: the periods of a table are divisors of one of them. The last list
/// is of long cycles, up to the longest.
const SHORT: [usize; 24] = [1, 2, 3, 4, 5, 6, 7, 8, 9, 10, 12, 14, 15, 16, 18, 20, 24, 28, 30, 36, 40, 42, 48, 60];
const MIDDLE: [usize; 12] = [64, 72, 84, 90, 96, 105, 108, 120, 126, 144, 168, 180];
const LARGE: [usize; 10] = [210, 240, 252, 300, 360, 420, 480, 504, 720, 840];
const LONG: [usize; 9] = [1024, 1260, 2048, 2520, 3600, 4032, 4080, 4095, 4096];

/// An accepted table; often with something in the places past its rows.
pub fn accepted(numbers: &mut Numbers) -> Table {
    let free = numbers.weighted(&[3, 2]) == 1;
    let periods = if free { free_periods(numbers) } else { divisor_periods(numbers) };
    let mut table = with_times(numbers, &periods);
    if numbers.one_in(3) {
        litter(numbers, &mut table);
    }
    table
}

/// A table refused by this number, from 1 to 7, where the table at hand can be made to be; now and then by another
/// number too, so that the order decides.
pub fn refused(numbers: &mut Numbers, number: u8) -> Table {
    let mut table = accepted(numbers);
    if numbers.one_in(5) {
        let other = numbers.between(3, 7) as u8;
        spoil(numbers, &mut table, other);
    }
    spoil(numbers, &mut table, number);
    table
}

/// A table that is accepted except once in so many times.
pub fn mostly_accepted(numbers: &mut Numbers, times: usize) -> Table {
    if numbers.one_in(times) {
        let number = numbers.between(1, 7) as u8;
        refused(numbers, number)
    } else {
        accepted(numbers)
    }
}

/// Junk past the rows, or rows that would be refused if they counted.
fn litter(numbers: &mut Numbers, table: &mut Table) {
    let n = table.used().len();
    let junk = numbers.one_in(2);
    let last = if numbers.one_in(2) { MOST_ROWS } else { MOST_ROWS.min(n + 2) };
    for place in &mut table.rows[n..last] {
        *place = if junk {
            Row { period: numbers.word(), p: numbers.word(), a: numbers.word() }
        } else {
            Row { period: numbers.word_between(0, 6), p: numbers.word_between(0, 3), a: numbers.word_between(0, 3) }
        };
    }
}

fn row_count(numbers: &mut Numbers) -> usize {
    match numbers.weighted(&[14, 28, 25, 12, 17, 4]) {
        5 => MOST_ROWS,
        4 => numbers.between(5, MOST_ROWS),
        fewer => fewer + 1,
    }
}

/// Periods that divide a common number, ties among them, in order.
fn divisor_periods(numbers: &mut Numbers) -> Vec<usize> {
    let cycle = match numbers.weighted(&[74, 16, 6, 4]) {
        0 => numbers.pick(&SHORT),
        1 => numbers.pick(&MIDDLE),
        2 => numbers.pick(&LARGE),
        _ => numbers.pick(&LONG),
    };
    let n = row_count(numbers);
    // A table of many rows needs long periods, or its first rows use up every slot.
    let shortest = n.min(cycle);
    let divisors: Vec<usize> = (shortest..=cycle).filter(|period| cycle % period == 0).collect();
    let mut periods: Vec<usize> = (0..n).map(|_| numbers.pick(&divisors)).collect();
    if numbers.one_in(2) {
        periods[n - 1] = cycle;
    }
    periods.sort_unstable();
    periods
}

/// A few periods that need not divide anything, with a cycle that stays short.
fn free_periods(numbers: &mut Numbers) -> Vec<usize> {
    let n = numbers.between(2, 3);
    let mut periods: Vec<usize> = (0..n).map(|_| numbers.between(2, 14)).collect();
    periods.sort_unstable();
    while common_multiple(&periods) > 400 {
        periods.pop();
    }
    periods
}

fn common_multiple(periods: &[usize]) -> u64 {
    let next = |multiple: u64, period: &usize| multiple / gcd(multiple, *period as u64) * *period as u64;
    periods.iter().fold(1, next)
}

/// Rows of these periods, as many of them as find a free slot in each of their windows; once in a few times the last
/// row takes every slot that it can.
fn with_times(numbers: &mut Numbers, periods: &[usize]) -> Table {
    let full = numbers.one_in(4);
    let mut rows: Vec<Row> = Vec::new();
    for (index, period) in periods.iter().enumerate() {
        let most = most_units(&rows, *period);
        if most == 0 {
            break;
        }
        let last = index + 1 == periods.len();
        // Among many rows, mostly one unit each, or few of them would find room.
        let sparing = periods.len() > 4 && !numbers.one_in(8);
        let a = match (full && last, sparing) {
            (true, _) => most,
            (false, true) => 1,
            (false, false) => some_units(numbers, most),
        };
        let p = primary_units(numbers, *period);
        rows.push(Row { period: *period as u16, p: p as u16, a: a as u16 });
    }
    Table::of(&rows)
}

/// The most units that a row of this period can claim below these rows: the fewest free slots in one of its windows.
fn most_units(above: &[Row], period: usize) -> usize {
    let mut periods: Vec<usize> = above.iter().map(|row| usize::from(row.period)).collect();
    periods.push(period);
    let checked = Checked { rows: above.to_vec(), cycle: common_multiple(&periods) as usize };
    let holders = rule::reserve_fresh(&checked).holders;
    let free = |window: &[u8]| window.iter().filter(|holder| **holder == 0).count();
    holders.chunks_exact(period).map(free).min().unwrap_or(0)
}

fn some_units(numbers: &mut Numbers, most: usize) -> usize {
    match numbers.weighted(&[6, 3, 1]) {
        0 => 1,
        1 => numbers.between(1, (most + 1) / 2),
        _ => numbers.between(1, most),
    }
}

fn primary_units(numbers: &mut Numbers, period: usize) -> usize {
    match numbers.weighted(&[3, 8, 7, 2]) {
        0 => 1,
        1 => numbers.between(1, period.min(4)),
        2 => numbers.between(1, period),
        _ => period,
    }
}

/// Makes the table one that is refused by this number, if nothing before it applies.
fn spoil(numbers: &mut Numbers, table: &mut Table, number: u8) {
    match number {
        1 => table.n = 0,
        2 => table.n = if numbers.one_in(2) { numbers.pick(&[17, 255]) } else { numbers.between(17, 255) as u8 },
        3 => zero(numbers, table),
        4 => lengthen(numbers, table),
        5 => disorder(numbers, table),
        6 => outgrow(numbers, table),
        _ => tighten(numbers, table),
    }
}

/// One of the rows that count. A table at hand has at least one.
fn some_row<'a>(numbers: &mut Numbers, table: &'a mut Table) -> &'a mut Row {
    let n = table.used().len();
    &mut table.rows[numbers.below(n)]
}

fn zero(numbers: &mut Numbers, table: &mut Table) {
    let field = numbers.below(3);
    let row = some_row(numbers, table);
    match field {
        0 => row.period = 0,
        1 => row.p = 0,
        _ => row.a = 0,
    }
}

fn lengthen(numbers: &mut Numbers, table: &mut Table) {
    let of_primary = numbers.one_in(2);
    let by_one = numbers.one_in(2);
    let row = some_row(numbers, table);
    let long = if by_one { row.period.saturating_add(1) } else { 65_535 };
    if of_primary {
        row.p = long;
    } else {
        row.a = long;
    }
}

/// A row whose period is less than the one before it, whatever that was.
fn disorder(numbers: &mut Numbers, table: &mut Table) {
    if table.n == 1 {
        table.n = 2;
    }
    let place = numbers.between(1, table.used().len() - 1);
    let before = table.rows[place - 1].period;
    if before < 2 {
        table.rows[place - 1].period = 2;
    }
    let period = numbers.word_between(1, table.rows[place - 1].period - 1);
    table.rows[place] = Row { period, p: numbers.word_between(1, period), a: 1 };
}

/// A cycle over 4,096: far over it, just over it, or that of periods made to overflow narrow arithmetic.
fn outgrow(numbers: &mut Numbers, table: &mut Table) {
    match numbers.below(4) {
        0 => {
            let last = table.used().len() - 1;
            table.rows[last].period = numbers.pick(&[65_521, 65_535, 65_519, 32_768, 4_097]);
        }
        1 => {
            let periods = numbers.pick(&faults::OVER);
            *table = with_small_times(numbers, periods);
        }
        2 => {
            let period = numbers.word_between(4_097, 65_535);
            *table = with_small_times(numbers, &[period]);
        }
        _ => {
            let periods = just_over(numbers);
            *table = with_small_times(numbers, &periods);
        }
    }
}

/// Two periods whose least common multiple is a little over 4,096.
fn just_over(numbers: &mut Numbers) -> [u16; 2] {
    for _ in 0..1000 {
        let first = numbers.between(8, 200);
        let second = numbers.between(first, 600);
        let multiple = common_multiple(&[first, second]);
        if multiple > LONGEST_CYCLE && multiple < LONGEST_CYCLE + 200 {
            return [first as u16, second as u16];
        }
    }
    [17, 241]
}

fn with_small_times(numbers: &mut Numbers, periods: &[u16]) -> Table {
    let mut rows = Vec::new();
    for period in periods {
        let p = numbers.word_between(1, (*period).min(3));
        rows.push(Row { period: *period, p, a: numbers.word_between(1, (*period).min(2)) });
    }
    Table::of(&rows)
}

/// A row that claims one slot too many. One row alone is never short, so it gets a second one that ties with it. Where
/// the table is refused by an earlier number already, it has no windows to count in and stays as it is.
fn tighten(numbers: &mut Numbers, table: &mut Table) {
    if table::check_rows(table).is_err() {
        return;
    }
    if table.n == 1 {
        table.n = 2;
        table.rows[1] = table.rows[0];
    }
    let place = numbers.between(1, table.used().len() - 1);
    let period = table.rows[place].period;
    let most = most_units(&table.rows[..place], usize::from(period)) as u16;
    table.rows[place].a = period.min(most + 1);
}
