//! The reservation rule, the first slots, and refusal 7.

use crate::refusal::{self, Refusal};
use crate::table::{self, Checked, Row, Table};

/// What the rule gives: for each slot of the cycle its holder, 0 for free or the row, and the first row with a job
/// that is short, 0 for none.
pub struct Reserved {
    pub holders: Vec<u8>,
    pub short: u8,
}

/// "Take the rows from row 1 down. Each job reserves the latest a slots of its window that no higher row holds."
/// Here with a clock as the first usable slot, each current job claiming the units in `left` (one figure for each
/// row) and each later job of the cycle claiming a. A job that is short reserves all the slots it can.
pub fn reserve(checked: &Checked, clock: usize, left: &[u16]) -> Reserved {
    let mut holders = vec![0; checked.cycle];
    let mut short = 0;
    for (index, (row, left)) in checked.rows.iter().zip(left).enumerate() {
        let name = index as u8 + 1;
        let period = usize::from(row.period);
        for job in 1..=checked.cycle / period {
            // "Job j of a row, j from 1, has the window from (j-1) times the period up to, not including, j times
            // the period."
            let start = (job - 1) * period;
            let end = job * period;
            let claim = claim(row, start, end, clock, *left);
            let held = hold_latest(&mut holders, name, start.max(clock), end, claim);
            if held < claim && short == 0 {
                short = name;
            }
        }
    }
    Reserved { holders, short }
}

/// What the job with this window claims. A job whose window has ended claims nothing.
fn claim(row: &Row, start: usize, end: usize, clock: usize, left: u16) -> usize {
    if end <= clock {
        0
    } else if start <= clock {
        usize::from(left)
    } else {
        usize::from(row.a)
    }
}

/// Holds the latest free slots from `first` up to, not including, `end`, and answers how many there were.
fn hold_latest(holders: &mut [u8], name: u8, first: usize, end: usize, claim: usize) -> usize {
    let mut held = 0;
    for slot in (first..end).rev() {
        if held < claim && holders[slot] == 0 {
            holders[slot] = name;
            held += 1;
        }
    }
    held
}

/// The reservations of the table's fresh record: clock 0 and left a in every row.
pub fn reserve_fresh(checked: &Checked) -> Reserved {
    let left: Vec<u16> = checked.rows.iter().map(|row| row.a).collect();
    reserve(checked, 0, &left)
}

/// Refusals 1 to 7. "If a window has fewer such slots, the table is tight at that row, and the first such row is
/// named."
pub fn check(table: &Table) -> Result<Checked, Refusal> {
    let checked = table::check_rows(table)?;
    let short = reserve_fresh(&checked).short;
    if short == 0 {
        Ok(checked)
    } else {
        Err(refusal::tight(short))
    }
}

/// "The first reserved slot of a job is its notification time": that of each job of the cycle, rows in order, in each
/// row jobs in order.
pub fn first_slots(checked: &Checked) -> Vec<usize> {
    let holders = reserve_fresh(checked).holders;
    let mut firsts = Vec::new();
    for (index, row) in checked.rows.iter().enumerate() {
        let name = index as u8 + 1;
        let windows = holders.chunks_exact(usize::from(row.period));
        for (job, window) in windows.enumerate() {
            let start = job * usize::from(row.period);
            // a is at least 1 and no job is short, so each window has such a slot.
            if let Some(place) = window.iter().position(|holder| *holder == name) {
                firsts.push(start + place);
            }
        }
    }
    firsts
}
