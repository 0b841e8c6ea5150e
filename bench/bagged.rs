//! The bags that the library's report is timed on, and what it is held to before: the second program's report, which
//! works each job out anew, and a tally of the plain Rust run.

use crate::bags::{self, BagReport};
use crate::library;
use crate::same;
use crate::table::Table;

/// So many bags are asked for, one after the other from slot 0.
pub const BAGS: usize = 1_000;

/// The dosing row.
pub const ROW: u8 = 1;

/// So many slots for each bag that the bags cover as much of a list as they can.
fn size(slots: usize) -> u16 {
    (slots / BAGS).min(usize::from(u16::MAX)) as u16
}

/// The library's report on a list; answers the slots that it accepts, all of them or none.
pub fn report(file: &[u8], reports: &[u8], marks: &mut [u8]) -> usize {
    match library::bags(file, reports, ROW, size(reports.len()), marks) {
        0 => reports.len(),
        _ => 0,
    }
}

/// The library's report on a list, so short that the second program is done with it soon, is the second program's.
pub fn hold_to_second(table: &Table, file: &[u8], reports: &[u8]) -> Result<(), String> {
    let size = size(reports.len());
    let mut second_marks = marks();
    let second = bags::report(table, reports, ROW, &spans(size), &mut second_marks);
    let mut marks = marks();
    let refusal = library::bags(file, reports, ROW, size, &mut marks);
    same("refusal of the short bag report", &refusal, &u64::from(second.refusal.number))?;
    same("marks of the short bag report", &marks, &second_marks)?;
    let counts = library::bag_counts(file, reports, ROW, size, &mut marks);
    same("counts of the short bag report", &counts, &counts_of(&second))
}

/// The library's report on a list has the marks that its log comes to.
pub fn hold_to_log(table: &Table, file: &[u8], reports: &[u8], log: &[u8]) -> Result<(), String> {
    let mut marks = marks();
    same("slots of the bag report", &report(file, reports, &mut marks), &reports.len())?;
    same("marks of the bag report", &marks, &tally(table, reports, log))
}

/// The lent bytes before a report.
pub fn marks() -> Vec<u8> {
    vec![crate::BEFORE; BAGS]
}

fn spans(size: u16) -> Vec<u64> {
    (0..BAGS as u64).flat_map(|bag| [bag * u64::from(size), (bag + 1) * u64::from(size)]).collect()
}

/// Each place's counts.
fn counts_of(report: &BagReport) -> Vec<(u32, u32)> {
    report.shares.iter().map(|share| (share.done, share.of)).collect()
}

/// Each bag's mark: a job is done by its primary if that was reported in one of the slots of its window, and a mark of
/// both kinds is mixed.
fn tally(table: &Table, reports: &[u8], log: &[u8]) -> Vec<u8> {
    let size = usize::from(size(reports.len()));
    let period = usize::from(table.rows[usize::from(ROW) - 1].period);
    let mut marks = vec![bags::NO_JOB; BAGS];
    for (job, (works, reports)) in log.chunks_exact(period).zip(reports.chunks_exact(period)).enumerate() {
        let done = works.iter().zip(reports).any(|(work, report)| *work == ROW && *report == 1);
        let deadline = (job + 1) * period;
        if let Some(mark) = marks.get_mut((deadline - 1) / size) {
            *mark |= if done { bags::MODELLED } else { bags::FIXED };
        }
    }
    marks
}
