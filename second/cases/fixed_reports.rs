//! Reports of each number at each sort of slot, and the order of their refusals.

use super::draft::*;
use super::fixed_examples::{from_fresh, p1};
use crate::form::{LARGEST_BODY, RECORD_PLACE};
use crate::record::Record;
use crate::record::State::{Done, Failed, Waiting};

pub fn drafts() -> Vec<Draft> {
    let mut drafts = single_slots();
    drafts.extend(lists());
    drafts.extend(from_records());
    drafts.extend(before_report());
    // The largest case: 16,283 reports of a single row that is aborted after two units and done, in turn.
    let turns = [0, 0, 0, 0, 0, 1, 0, 0];
    let reports: Vec<u8> = turns.iter().copied().cycle().take(LARGEST_BODY - RECORD_PLACE).collect();
    drafts.push(from_fresh(LOST_FRESH, &table_of(&[(4, 3, 2)]), &reports));
    drafts
}

/// Records of P1's table at a slot with a first and a last primary unit, an alternate unit of a failed and of a waiting
/// job, and an idle slot.
fn slots() -> Vec<Record> {
    vec![
        record_of(0, &[(Waiting, 0, 1), (Waiting, 0, 2)]),
        record_of(1, &[(Waiting, 1, 1), (Waiting, 0, 2)]),
        record_of(3, &[(Done, 2, 0), (Waiting, 1, 2)]),
        record_of(3, &[(Failed, 2, 1), (Failed, 1, 2)]),
        record_of(3, &[(Failed, 2, 1), (Waiting, 1, 2)]),
        record_of(4, &[(Failed, 2, 1), (Failed, 1, 1)]),
        record_of(4, &[(Done, 2, 0), (Done, 2, 0)]),
        record_of(5, &[(Waiting, 0, 1), (Failed, 0, 1)]),
        record_of(29, &[(Waiting, 1, 1), (Done, 1, 0)]),
        record_of(29, &[(Done, 1, 0), (Done, 1, 0)]),
    ]
}

fn single_slots() -> Vec<Draft> {
    let mut drafts = Vec::new();
    for record in slots() {
        for report in [0, 1, 2, 3, 255] {
            drafts.push(Draft::new(STEP).table(&p1()).record(&record).list(&[report]));
        }
    }
    drafts
}

/// Lists from a fresh start: refused at the first, a middle and the last slot, and long ones.
fn lists() -> Vec<Draft> {
    let lists: [&[u8]; 13] = [
        &[3],
        &[255, 0, 0],
        &[0, 1, 0, 3, 0],
        &[0, 1, 0, 1, 255],
        // Slot 4 is idle.
        &[0, 1, 0, 1, 1],
        &[0, 1, 0, 1, 2, 0, 0],
        // Slot 3 runs an alternate.
        &[0, 2, 0, 2],
        &[0, 2, 0, 1, 0],
        // 10 before 11 in a slot, and slot by slot.
        &[0, 2, 0, 3],
        &[0, 2, 0, 1, 3],
        &[0, 2, 3, 1],
        &[0, 1, 0, 0],
        &[0; 65],
    ];
    let mut drafts = Vec::new();
    for reports in lists {
        for kind in [RUN, LOST, LOST_FRESH] {
            drafts.push(from_fresh(kind, &p1(), reports));
        }
    }
    drafts
}

/// Lost units of a job that is open in the record, of one that fails by itself and of one that was failed before.
fn from_records() -> Vec<Draft> {
    let mut drafts = Vec::new();
    for record in slots() {
        for reports in [[0, 0, 0, 0, 0], [2, 0, 0, 0, 0], [1, 0, 0, 0, 0]] {
            drafts.push(Draft::new(RUN).table(&p1()).record(&record).list(&reports).room(5));
            drafts.push(Draft::new(LOST).table(&p1()).record(&record).list(&reports));
        }
    }
    drafts
}

/// 9 before 8 and 10, 8 before 10 and 11, 7 before 10.
fn before_report() -> Vec<Draft> {
    let unsound = record_of(30, &[]);
    let tight = table_of(&[(4, 1, 2), (6, 1, 3)]);
    vec![
        Draft::new(RUN).table(&p1()).record(&unsound).list(&[3, 0]).room(1),
        Draft::new(STEP).table(&p1()).record(&unsound).list(&[3]),
        Draft::new(STEP).table(&p1()).record(&unsound).list(&[1]),
        Draft::new(LOST).table(&p1()).record(&unsound).list(&[3]),
        from_fresh(RUN, &p1(), &[3, 0]).room(1),
        from_fresh(RUN, &p1(), &[0, 2, 0, 1]).room(3),
        from_fresh(RUN, &tight, &[3]),
        from_fresh(LOST_FRESH, &tight, &[3]),
    ]
}
