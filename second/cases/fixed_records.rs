//! Records that are sound at a limit, and ones that are unsound in each way.

use super::draft::*;
use super::fixed_examples::p1;
use crate::record::State::{Done, Failed, Waiting};
use crate::record::{Entry, Record, State};

pub fn drafts() -> Vec<Draft> {
    let mut drafts = Vec::new();
    for record in sound() {
        drafts.push(Draft::new(CLOCK).table(&p1()).record(&record));
    }
    for record in sound().iter().chain(&unsound()) {
        for kind in [ASKED, WAITING, STEP] {
            drafts.push(Draft::new(kind).table(&p1()).record(record));
        }
        for kind in [RUN, LOST] {
            drafts.push(Draft::new(kind).table(&p1()).record(record).list(&[0, 0, 0]).room(3));
        }
    }
    drafts.extend(sixteen_rows());
    drafts.extend(done_bytes());
    drafts.extend(clocks());
    drafts.extend(before_record());
    drafts
}

/// Sound records of P1's table, (5,2,1) (6,2,2), with entries at their limits.
fn sound() -> Vec<Record> {
    let mut past_rows = record_of(2, &[(Done, 2, 0), (Waiting, 0, 2)]);
    for entry in past_rows.entries.iter_mut().skip(2) {
        *entry = Entry { state: Done, u: 65_535, left: 7 };
    }
    vec![
        record_of(0, &[(Waiting, 1, 1), (Waiting, 1, 2)]),
        record_of(3, &[(Failed, 0, 1), (Failed, 0, 2)]),
        record_of(3, &[(Failed, 2, 0), (Failed, 2, 0)]),
        record_of(4, &[(Done, 1, 0), (Done, 2, 0)]),
        // Two slots are left in both windows' rest, and both are claimed.
        record_of(4, &[(Failed, 1, 1), (Failed, 1, 1)]),
        record_of(4, &[(Done, 1, 0), (Waiting, 1, 2)]),
        record_of(29, &[(Waiting, 0, 1), (Failed, 0, 0)]),
        record_of(29, &[(Done, 1, 0), (Failed, 2, 1)]),
        past_rows,
    ]
}

fn unsound() -> Vec<Record> {
    let mut records = Vec::new();
    // "the clock is less than the cycle"
    for clock in [30, 31, 65_535] {
        records.push(record_of(clock, &[(Done, 1, 0), (Done, 1, 0)]));
    }
    // Entries that don't fit, in row 1 and in row 2; beside them a row that does.
    let rows_1: [(State, u16, u16); 9] = [
        (Waiting, 2, 1),
        (Waiting, 0, 0),
        (Waiting, 0, 2),
        (Failed, 3, 1),
        (Failed, 1, 2),
        (Done, 0, 0),
        (Done, 3, 0),
        (Done, 1, 1),
        (Waiting, 65_535, 1),
    ];
    records.extend(rows_1.iter().map(|entry| record_of(0, &[*entry, (Waiting, 0, 2)])));
    let rows_2 = [(Waiting, 2, 2), (Waiting, 0, 1), (Waiting, 1, 3), (Failed, 3, 0), (Failed, 2, 3), (Done, 2, 1)];
    records.extend(rows_2.iter().map(|entry| record_of(0, &[(Waiting, 0, 1), *entry])));
    // Each entry fits, but a job is short.
    records.push(record_of(5, &[(Waiting, 0, 1), (Waiting, 0, 2)]));
    records.push(record_of(4, &[(Waiting, 0, 1), (Failed, 1, 2)]));
    records.push(record_of(29, &[(Failed, 0, 1), (Failed, 0, 1)]));
    records
}

/// Sixteen rows (32,1,1), of which row 1 holds slot 31 and row 16 slot 16: the highest row and the highest place of the
/// waiting set, and a primary, an alternate and nothing at the clock.
fn sixteen_rows() -> Vec<Draft> {
    let table = table_of(&[(32, 1, 1); 16]);
    let (waiting, failed, done) = ((Waiting, 0, 1), (Failed, 0, 1), (Done, 1, 0));
    let rows = |others, last| [[others; 15].as_slice(), &[last]].concat();
    let records = [
        record_of(0, &[waiting; 16]),
        record_of(16, &[waiting; 16]),
        record_of(0, &rows(done, waiting)),
        record_of(0, &rows(failed, waiting)),
        record_of(16, &rows(failed, waiting)),
        record_of(30, &rows(done, waiting)),
        record_of(31, &rows(done, waiting)),
        record_of(31, &rows(done, failed)),
        record_of(31, &[done; 16]),
    ];
    let mut drafts = Vec::new();
    for record in records {
        for kind in [CLOCK, ASKED, WAITING, STEP] {
            drafts.push(Draft::new(kind).table(&table).record(&record).list(&[0]));
        }
        drafts.push(Draft::new(STEP).table(&table).record(&record).list(&[1]));
        drafts.push(Draft::new(RUN).table(&table).record(&record).list(&[0; 34]).room(34));
    }
    drafts
}

/// "anything else done"
fn done_bytes() -> Vec<Draft> {
    let mut drafts = Vec::new();
    for done in [3, 128, 255] {
        let mut draft = Draft::new(STEP).table(&p1()).record(&record_of(2, &[(Done, 2, 0), (Waiting, 0, 2)]));
        draft.done = done;
        drafts.push(draft);
    }
    drafts
}

/// Reservations from a clock with units left that no sound record has.
fn clocks() -> Vec<Draft> {
    let mut drafts = Vec::new();
    for clock in [0, 3, 4, 5, 10, 29, 30, 65_535] {
        for left in [(0, 0), (1, 2), (65_535, 2), (1, 65_535), (3, 7)] {
            let record = record_of(clock, &[(Waiting, 9, left.0), (Done, 9, left.1)]);
            drafts.push(Draft::new(CLOCK).table(&p1()).record(&record));
        }
    }
    // A tight table is not refused here, and its short row stands beside the holder.
    for clock in 0..8 {
        let record = record_of(clock, &[(Waiting, 0, 2), (Waiting, 0, 3)]);
        drafts.push(Draft::new(CLOCK).table(&table_of(&[(4, 1, 2), (6, 1, 3)])).record(&record));
    }
    drafts
}

/// 6 and 7 before 9.
fn before_record() -> Vec<Draft> {
    let mut drafts = Vec::new();
    for table in [table_of(&[(64, 1, 1), (65, 1, 1)]), table_of(&[(4, 1, 2), (6, 1, 3)])] {
        for kind in [ASKED, WAITING, STEP, RUN, LOST] {
            drafts.push(Draft::new(kind).table(&table).record(&record_of(65_535, &[(Done, 0, 0)])));
        }
    }
    drafts
}
