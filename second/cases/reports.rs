//! Random reports and lists of them.

use crate::numbers::Numbers;
use crate::record::{self, Record};
use crate::run::{self, Work};
use crate::table::Checked;

/// A report that is never refused: 0 for an alternate and an idle slot; for a primary unit mostly going on before its
/// last unit and done at it.
pub fn right(numbers: &mut Numbers, checked: &Checked, record: &Record) -> u8 {
    match run::what_runs(checked, record) {
        Work::Primary(name) => {
            let index = usize::from(name) - 1;
            let last_unit = record.entries[index].u + 1 == checked.rows[index].p;
            let weights = if last_unit { [15, 70, 15] } else { [75, 15, 10] };
            numbers.weighted(&weights) as u8
        }
        _ => 0,
    }
}

/// A report of any number, mostly one of 0 to 3.
pub fn any(numbers: &mut Numbers) -> u8 {
    if numbers.one_in(10) {
        numbers.byte()
    } else {
        numbers.below(4) as u8
    }
}

/// A list for a sound record: right all along, right up to a stray report or one over 2, all going on, or blind.
pub fn list(numbers: &mut Numbers, checked: &Checked, record: &Record) -> Vec<u8> {
    let slots = length(numbers, checked.cycle);
    match numbers.weighted(&[60, 15, 12, 8, 5]) {
        0 => right_list(numbers, checked, record, slots),
        1 => {
            let reports = right_list(numbers, checked, record, slots);
            with_stray(numbers, checked, record, reports)
        }
        2 => {
            let mut reports = right_list(numbers, checked, record, slots + 1);
            let place = numbers.below(slots + 1);
            reports[place] = numbers.pick(&[3, 4, 127, 255]);
            reports
        }
        3 => vec![0; slots],
        _ => blind(numbers, slots),
    }
}

/// Reports of 0 to 2 that know nothing of what runs.
pub fn blind(numbers: &mut Numbers, slots: usize) -> Vec<u8> {
    (0..slots).map(|_| numbers.pick(&[0, 0, 0, 1, 2])).collect()
}

/// Mostly a few slots, at times up to a hundred or so, seldom several cycles, and of long cycles hardly ever.
fn length(numbers: &mut Numbers, cycle: usize) -> usize {
    match numbers.weighted(&[5, 50, 29, 12, 4]) {
        0 => 0,
        1 => numbers.between(1, 24),
        2 => numbers.between(10, 60),
        3 => numbers.between(40, 120),
        _ => {
            let most = if numbers.one_in(3) { 9000 } else { 300 };
            (numbers.between(1, 4) * cycle).min(most)
        }
    }
}

/// Reports for so many slots that are never refused.
pub fn right_list(numbers: &mut Numbers, checked: &Checked, record: &Record, slots: usize) -> Vec<u8> {
    let mut record = *record;
    let mut reports = Vec::new();
    for _ in 0..slots {
        let report = right(numbers, checked, &record);
        reports.push(report);
        if let Ok(slot) = run::step(checked, &record, report) {
            record = slot.next;
        }
    }
    reports
}

/// Such reports from a fresh start, for the cases that are the same for every seed.
pub fn steady(checked: &Checked, slots: usize) -> Vec<u8> {
    right_list(&mut Numbers::new(1), checked, &record::fresh(&checked.rows), slots)
}

/// The list with a report 1 or 2 in one of the slots that run no primary, if it has any; what follows stays, with now
/// and then a report over 2 behind it that is never read.
fn with_stray(numbers: &mut Numbers, checked: &Checked, record: &Record, mut reports: Vec<u8>) -> Vec<u8> {
    let log = run::course(checked, record, &reports).log;
    let no_primary: Vec<usize> = (0..log.len()).filter(|slot| log[*slot] == 0 || log[*slot] > 16).collect();
    if let Some(last) = no_primary.last() {
        if numbers.one_in(4) && *last + 1 < reports.len() {
            reports[*last + 1] = 3;
        }
        let place = numbers.pick(&no_primary);
        reports[place] = numbers.pick(&[1, 2]);
    }
    reports
}
