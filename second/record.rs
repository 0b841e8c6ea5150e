//! Records: the fresh one, which ones are sound, and the rows that wait.

use crate::refusal::{self, Refusal};
use crate::rule;
use crate::table::{Checked, Row, Table, MOST_ROWS};

#[derive(Clone, Copy, Debug, PartialEq, Eq)]
pub enum State {
    Waiting,
    Failed,
    Done,
}

/// A row's current job: its state, the primary units run and the alternate units left.
#[derive(Clone, Copy, Debug, PartialEq, Eq)]
pub struct Entry {
    pub state: State,
    pub u: u16,
    pub left: u16,
}

#[derive(Clone, Copy, Debug, PartialEq, Eq)]
pub struct Record {
    pub clock: u16,
    pub entries: [Entry; MOST_ROWS],
}

/// "A fresh record has clock 0, all jobs waiting, u 0 and left a; its entries past the table's rows are waiting with
/// u 0 and left 0."
pub fn fresh(rows: &[Row]) -> Record {
    let mut record = Record { clock: 0, entries: [opened(0); MOST_ROWS] };
    for (entry, row) in record.entries.iter_mut().zip(rows) {
        *entry = opened(row.a);
    }
    record
}

/// The entry of a job whose window has just started.
pub fn opened(a: u16) -> Entry {
    Entry { state: State::Waiting, u: 0, left: a }
}

/// Refusals 1 to 7 and then 9.
pub fn check(table: &Table, record: &Record) -> Result<Checked, Refusal> {
    let checked = rule::check(table)?;
    if is_sound(&checked, record) {
        Ok(checked)
    } else {
        Err(refusal::RECORD)
    }
}

/// The three points of a sound record. "Entries past the table's rows are ignored."
pub fn is_sound(checked: &Checked, record: &Record) -> bool {
    usize::from(record.clock) < checked.cycle
        && checked.rows.iter().zip(&record.entries).all(|(row, entry)| fits(row, entry))
        && reserve(checked, record).short == 0
}

/// "a waiting job has u from 0 to p-1 and a units left; a failed job has u from 0 to p and left from 0 to a; a done
/// job has u from 1 to p and 0 left"
fn fits(row: &Row, entry: &Entry) -> bool {
    match entry.state {
        State::Waiting => entry.u < row.p && entry.left == row.a,
        State::Failed => entry.u <= row.p && entry.left <= row.a,
        State::Done => entry.u >= 1 && entry.u <= row.p && entry.left == 0,
    }
}

/// "with the clock as the first usable slot, each current job claiming its units left and each later job of the cycle
/// claiming a"
pub fn reserve(checked: &Checked, record: &Record) -> rule::Reserved {
    let left: Vec<u16> = record.entries.iter().map(|entry| entry.left).collect();
    rule::reserve(checked, usize::from(record.clock), &left)
}

/// The numbers, from 1, of the waiting rows, lowest first.
pub fn waiting<'a>(checked: &Checked, record: &'a Record) -> impl Iterator<Item = u8> + 'a {
    let entries = record.entries[..checked.rows.len()].iter();
    entries.zip(1..).filter(|(entry, _)| entry.state == State::Waiting).map(|(_, row)| row)
}
