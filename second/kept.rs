//! A list of reports run with the reservations kept: built once, and worked out again only where they change. What each
//! slot goes through is marked inline, here and in run.rs: a call costs more than the little that it does.

use crate::record::{self, Record};
use crate::refusal::{self, Refusal};
use crate::run;
use crate::table::{Checked, Table};

/// What a run answers: the refusal that stopped it, if one did, the slots accepted and the record after them.
#[derive(Debug, PartialEq, Eq)]
pub struct Ran {
    pub refusal: Refusal,
    pub slots: usize,
    pub record: Record,
}

/// The run of any table, record and reports over a lent log and a lent buffer.
pub fn run(table: &Table, given: &Record, reports: &[u8], log: &mut [u8], buffer: &mut [u8]) -> Ran {
    match admit(table, given, reports, log, buffer) {
        Ok(checked) => run_list(&checked, given, reports, log, &mut buffer[..checked.cycle]),
        Err(refusal) => Ran { refusal, slots: 0, record: *given },
    }
}

/// Refusals 1 to 7, 9 and then 8: "The log needs as many bytes as there are reports", and "8 also when that buffer is
/// shorter than the cycle".
pub fn admit(table: &Table, given: &Record, reports: &[u8], log: &[u8], buffer: &[u8]) -> Result<Checked, Refusal> {
    let checked = record::check(table, given)?;
    if log.len() < reports.len() || buffer.len() < checked.cycle {
        return Err(refusal::ROOM);
    }
    Ok(checked)
}

/// The list of a sound record, slot by slot, over a buffer of the cycle's length. "10 or 11 leaves it built, even at the
/// first slot".
fn run_list(checked: &Checked, given: &Record, reports: &[u8], log: &mut [u8], buffer: &mut [u8]) -> Ran {
    let mut record = *given;
    build(checked, &record, buffer);
    for (slots, (report, byte)) in reports.iter().zip(log).enumerate() {
        match run_slot(checked, &mut record, *report, buffer) {
            Ok(ran) => *byte = ran,
            Err(refusal) => return Ran { refusal, slots, record },
        }
    }
    Ran { refusal: refusal::NONE, slots: reports.len(), record }
}

/// One slot, and its log byte. A unit of an alternate takes the earliest slot that its job holds, and a primary that
/// fails keeps its claim, so neither moves a reservation: the slot that has passed is all that goes. A done gives up a
/// claim, and after the cycle's end every job is a new one.
#[inline]
pub fn run_slot(checked: &Checked, record: &mut Record, report: u8, buffer: &mut [u8]) -> Result<u8, Refusal> {
    let slot = usize::from(record.clock);
    let work = run::work_under(buffer[slot], checked, record);
    run::settle(checked, record, work, report)?;
    buffer[slot] = 0;
    if report == 1 || record.clock == 0 {
        build(checked, record, buffer);
    }
    Ok(run::log_byte(work))
}

/// "hold the reservations of the record handed back, with 0 for slots behind its clock"
pub fn build(checked: &Checked, record: &Record, buffer: &mut [u8]) {
    let clock = usize::from(record.clock);
    buffer.fill(0);
    for ((row, entry), name) in checked.rows.iter().zip(&record.entries).zip(1..) {
        let period = usize::from(row.period);
        let deadline = clock - clock % period + period;
        hold_latest(&mut buffer[clock..deadline], name, entry.left);
        for window in buffer[deadline..].chunks_exact_mut(period) {
            hold_latest(window, name, row.a);
        }
    }
}

/// Holds the latest free slots of a window, as many as are claimed. No job of a sound record is short.
fn hold_latest(window: &mut [u8], name: u8, claim: u16) {
    let free = window.iter_mut().rev().filter(|holder| **holder == 0);
    for holder in free.take(usize::from(claim)) {
        *holder = name;
    }
}
