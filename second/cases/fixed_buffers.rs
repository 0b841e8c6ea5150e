//! Runs by their buffer: its room, what it held before, and what each end of a run leaves in it.

use super::draft::*;
use super::faults::BASE;
use super::fixed_examples::{from_fresh, p1};
use crate::record::State::{Done, Failed, Waiting};
use crate::table::Table;

pub fn drafts() -> Vec<Draft> {
    let mut drafts = rooms();
    drafts.extend(orders());
    drafts.extend(empty_lists());
    drafts.extend(stopped());
    drafts.extend(past_the_end());
    drafts.extend(one_report_at_each_slot(1));
    drafts.extend(one_report_at_each_slot(2));
    drafts
}

/// Bodies whose buffers hold numbers of rows before the call, which "mean nothing": from place 1 on, from place 0 on,
/// in the last places and in the middle.
pub fn bodies() -> Vec<Vec<u8>> {
    let mut bodies = Vec::new();
    for fill in [0, 1, 228, 241] {
        for reports in [&[][..], &[0, 1, 0], &[0, 1, 0, 1, 0, 0, 2]] {
            let mut draft = from_fresh(RUN, &p1(), reports);
            draft.fill = fill;
            bodies.push(draft.body());
        }
    }
    bodies
}

/// The cycle is 12, and rooms over 16,384 count as that.
fn rooms() -> Vec<Draft> {
    let base = table_of(&BASE);
    let reports = [0, 1, 0, 1, 0, 0, 0];
    let rooms = [0, 1, 6, 11, 12, 13, 20, 65_535];
    rooms.iter().map(|room| from_fresh(RUN, &base, &reports).buffer(*room)).collect()
}

/// A buffer that is short beside a short log, beside 7 and 9, and beside 10 and 11 in the first slot.
fn orders() -> Vec<Draft> {
    let unsound = record_of(30, &[]);
    let idle = record_of(4, &[(Done, 2, 0), (Done, 2, 0)]);
    let tight = table_of(&[(4, 1, 2), (6, 1, 3)]);
    vec![
        from_fresh(RUN, &p1(), &[0, 1, 0]).room(2).buffer(29),
        from_fresh(RUN, &p1(), &[0, 1, 0]).room(2),
        from_fresh(RUN, &p1(), &[0, 1, 0]).buffer(29),
        from_fresh(RUN, &tight, &[0]).buffer(11),
        Draft::new(RUN).table(&p1()).record(&unsound).list(&[0]).room(1).buffer(29),
        Draft::new(RUN).table(&p1()).record(&unsound).list(&[0]).buffer(0),
        from_fresh(RUN, &p1(), &[3]).buffer(29),
        Draft::new(RUN).table(&p1()).record(&idle).list(&[1]).room(1).buffer(29),
    ]
}

/// An empty list needs no log, but the buffer all the same, and leaves it built.
fn empty_lists() -> Vec<Draft> {
    let records = [
        record_of(0, &[(Waiting, 0, 1), (Waiting, 0, 2)]),
        record_of(3, &[(Failed, 2, 1), (Waiting, 1, 2)]),
        record_of(4, &[(Done, 2, 0), (Waiting, 1, 2)]),
        record_of(29, &[(Done, 1, 0), (Failed, 2, 1)]),
    ];
    let mut drafts = Vec::new();
    for record in records {
        for room in [0, 29, 30, 31] {
            drafts.push(Draft::new(RUN).table(&p1()).record(&record).buffer(room));
        }
    }
    drafts
}

/// 10 and 11: at the first slot of a record in the middle of the cycle, after a unit, after a done, after the cycle's
/// last slot and one slot behind that.
fn stopped() -> Vec<Draft> {
    let alternate = record_of(3, &[(Failed, 2, 1), (Waiting, 1, 2)]);
    let idle = record_of(4, &[(Done, 2, 0), (Done, 2, 0)]);
    let last = record_of(29, &[(Done, 1, 0), (Done, 1, 0)]);
    let mut drafts = Vec::new();
    for report in [1, 2, 3] {
        for record in [&alternate, &idle, &last] {
            for before in 0..=2 {
                let reports = [vec![0; before], vec![report, 0]].concat();
                drafts.push(Draft::new(RUN).table(&p1()).record(record).list(&reports).room(reports.len()));
            }
        }
    }
    for reports in [&[0, 3][..], &[0, 1, 3], &[0, 1, 0, 1, 1], &[1, 2, 4], &[1, 1, 1]] {
        drafts.push(from_fresh(RUN, &p1(), reports));
    }
    drafts
}

/// Runs that end with the cycle, just past its end, in the middle of the next one and in the middle of a third.
fn past_the_end() -> Vec<Draft> {
    let mut drafts = Vec::new();
    for table in tables() {
        for slots in [11, 12, 13, 18, 24, 25, 31] {
            drafts.push(from_fresh(RUN, &table, &vec![0; slots]));
        }
    }
    drafts
}

/// All going on but for a done, or a failure, in one slot, each slot of the cycle and the first of the next: the last
/// one before a window ends and before a lower row's window starts among them. Where it is stray the run stops there.
fn one_report_at_each_slot(report: u8) -> Vec<Draft> {
    let mut drafts = Vec::new();
    for table in tables() {
        for slot in 0..=12 {
            let mut reports = vec![0; slot + 2];
            reports[slot] = report;
            drafts.push(from_fresh(RUN, &table, &reports[..=slot]));
            drafts.push(from_fresh(RUN, &table, &reports));
        }
    }
    drafts
}

/// Two tables with a cycle of 12: one whose primaries are short, and one whose primaries run up to their notification
/// times.
fn tables() -> [Table; 2] {
    [table_of(&BASE), table_of(&[(4, 4, 1), (6, 6, 2), (12, 12, 1)])]
}
