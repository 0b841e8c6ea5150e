//! One slot, and a list of reports run slot by slot.

use crate::record::{self, Entry, Record, State};
use crate::refusal::{self, Refusal};
use crate::table::{Checked, Row};

/// What runs in a slot; rows are named from 1.
#[derive(Clone, Copy, Debug, PartialEq, Eq)]
pub enum Work {
    Idle,
    Primary(u8),
    Alternate(u8),
}

/// A slot that was accepted.
pub struct Slot {
    pub work: Work,
    /// The primary units of the job whose primary was aborted in this slot, 0 where none was.
    pub lost: u64,
    pub next: Record,
}

/// What a list of reports came to: the accepted slots' log and lost units, the record after them, and the refusal
/// that stopped it, if one did.
pub struct Course {
    pub refusal: Refusal,
    pub record: Record,
    pub log: Vec<u8>,
    pub lost: u64,
}

/// "0 idle, k for a primary unit of row k, 16+k for an alternate unit"
pub fn log_byte(work: Work) -> u8 {
    match work {
        Work::Idle => 0,
        Work::Primary(row) => row,
        Work::Alternate(row) => 16 + row,
    }
}

/// What runs at the clock of a sound record: the holder's alternate if the slot is reserved, otherwise the
/// lowest-numbered waiting row's primary, otherwise nothing.
pub fn what_runs(checked: &Checked, record: &Record) -> Work {
    let holder = record::reserve(checked, record).holders[usize::from(record.clock)];
    work_under(holder, checked, record)
}

/// What runs at the clock where its slot is reserved for this row, or for none, 0.
#[inline]
pub fn work_under(holder: u8, checked: &Checked, record: &Record) -> Work {
    if holder != 0 {
        return Work::Alternate(holder);
    }
    match record::waiting(checked, record).next() {
        Some(row) => Work::Primary(row),
        None => Work::Idle,
    }
}

/// One slot of a sound record with its report.
pub fn step(checked: &Checked, record: &Record, report: u8) -> Result<Slot, Refusal> {
    let work = what_runs(checked, record);
    let mut next = *record;
    let lost = settle(checked, &mut next, work, report)?;
    Ok(Slot { work, lost, next })
}

/// Moves a record on by a slot in which this work runs; "10 before 11", and beside a refusal the record stays. Answers
/// the slot's lost units.
#[inline]
pub fn settle(checked: &Checked, record: &mut Record, work: Work, report: u8) -> Result<u64, Refusal> {
    if report > 2 {
        return Err(refusal::REPORT);
    }
    let mut lost = 0;
    match work {
        Work::Primary(name) => {
            let index = usize::from(name) - 1;
            run_primary(&checked.rows[index], &mut record.entries[index], report);
        }
        // "Reports 1 and 2 are only for a primary unit."
        _ if report != 0 => return Err(refusal::STRAY),
        Work::Alternate(name) => lost = run_alternate(&mut record.entries[usize::from(name) - 1]),
        Work::Idle => {}
    }
    move_clock(checked, record);
    Ok(lost)
}

/// "its holder's alternate runs one unit and left falls by 1. A waiting holder becomes failed: its primary is
/// aborted." Answers the units that are lost by that; a job that had failed before loses nothing here.
fn run_alternate(entry: &mut Entry) -> u64 {
    entry.left -= 1;
    if entry.state != State::Waiting {
        return 0;
    }
    entry.state = State::Failed;
    u64::from(entry.u)
}

/// "primary runs one unit and u rises by 1", and then the report: "Done makes the job done with 0 left", "Failed makes
/// it failed. Going on at the p-th unit makes it failed too, as an overrun."
fn run_primary(row: &Row, entry: &mut Entry, report: u8) {
    entry.u += 1;
    if report == 1 {
        entry.state = State::Done;
        entry.left = 0;
    } else if report == 2 || entry.u == row.p {
        entry.state = State::Failed;
    }
}

/// "Then the clock rises by 1, or goes to 0 at the cycle's end, and each row whose new window starts there becomes
/// waiting with u 0 and left a."
#[inline]
fn move_clock(checked: &Checked, record: &mut Record) {
    record.clock += 1;
    if usize::from(record.clock) == checked.cycle {
        record.clock = 0;
    }
    for (row, entry) in checked.rows.iter().zip(record.entries.iter_mut()) {
        if record.clock % row.period == 0 {
            *entry = record::opened(row.a);
        }
    }
}

/// "A list of reports is run slot by slot, past cycle ends if it is long." A run stopped by 10 or 11 has "the slots
/// accepted, the record after them and their log bytes".
pub fn course(checked: &Checked, record: &Record, reports: &[u8]) -> Course {
    let mut course = Course { refusal: refusal::NONE, record: *record, log: Vec::new(), lost: 0 };
    for report in reports {
        match step(checked, &course.record, *report) {
            Ok(slot) => {
                course.log.push(log_byte(slot.work));
                course.lost += slot.lost;
                course.record = slot.next;
            }
            Err(refusal) => {
                course.refusal = refusal;
                break;
            }
        }
    }
    course
}
