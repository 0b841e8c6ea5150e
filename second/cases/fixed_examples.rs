//! The examples P1 to P11 as cases, at every entry that can show them.

use super::draft::*;
use crate::file;
use crate::record::{self, State};
use crate::table::Table;

pub fn drafts() -> Vec<Draft> {
    let mut drafts = figures();
    drafts.extend(runs());
    drafts.extend(acceptance());
    drafts.extend(full_row());
    drafts.extend(files());
    drafts
}

/// The table of P1.
pub fn p1() -> Table {
    table_of(&[(5, 2, 1), (6, 2, 2)])
}

/// The reports of P2.
pub const P2_REPORTS: [u8; 10] = [0, 2, 0, 0, 0, 0, 0, 1, 0, 1];

/// A draft of a run, or of another kind with a record and reports, from the table's fresh record.
pub fn from_fresh(kind: u8, table: &Table, reports: &[u8]) -> Draft {
    let record = record::fresh(table.used());
    Draft::new(kind).table(table).record(&record).list(reports).room(reports.len())
}

/// P1: its cycle, its reservations and its first slots.
fn figures() -> Vec<Draft> {
    vec![
        Draft::new(ROWS).table(&p1()),
        Draft::new(CHECK).table(&p1()),
        Draft::new(LIST).table(&p1()).room(30),
        Draft::new(FIRSTS).table(&p1()).room(11),
        Draft::new(FRESH).table(&p1()),
        from_fresh(CLOCK, &p1(), &[]),
        from_fresh(WAITING, &p1(), &[]),
    ]
}

/// P2, P3 and P10.
fn runs() -> Vec<Draft> {
    let lists: [&[u8]; 3] = [&P2_REPORTS, &[0, 1, 0, 1, 0], &[0, 2, 0, 1]];
    let mut drafts = Vec::new();
    for reports in lists {
        for kind in [RUN, LOST, LOST_FRESH] {
            drafts.push(from_fresh(kind, &p1(), reports));
        }
        drafts.push(from_fresh(BAGS, &p1(), reports).bags(1, &[0, 5]));
    }
    // P3 after slot 1: the first slot of row 2 is no longer 3, so its primary runs there.
    for clock in 2..=3 {
        let row_2 = (State::Waiting, clock - 2, 2);
        let moved = record_of(clock, &[(State::Done, 2, 0), row_2]);
        drafts.push(Draft::new(CLOCK).table(&p1()).record(&moved));
        drafts.push(Draft::new(ASKED).table(&p1()).record(&moved));
        drafts.push(Draft::new(STEP).table(&p1()).record(&moved).list(&[0]));
    }
    drafts
}

/// P4 to P7.
fn acceptance() -> Vec<Draft> {
    let p4 = table_of(&[(4, 1, 2), (6, 1, 3)]);
    let p5 = table_of(&[(4, 1, 2), (6, 1, 2)]);
    let p6 = table_of(&[(63, 1, 1), (64, 1, 1)]);
    let p7 = table_of(&[(64, 1, 1), (65, 1, 1)]);
    let mut drafts = Vec::new();
    for table in [&p4, &p5, &p6, &p7] {
        for kind in [ROWS, CHECK, WRITE] {
            drafts.push(Draft::new(kind).table(table).room(16));
        }
    }
    drafts.push(Draft::new(LIST).table(&p5).room(12));
    drafts.push(from_fresh(CLOCK, &p4, &[]));
    drafts.push(Draft::new(FIRSTS).table(&p6).room(127));
    drafts
}

/// P8 and P9.
fn full_row() -> Vec<Draft> {
    let p8 = table_of(&[(4, 1, 4)]);
    let mut drafts = vec![
        Draft::new(CHECK).table(&p8),
        from_fresh(RUN, &p8, &[0, 0, 0, 0]),
        from_fresh(LOST_FRESH, &p8, &[0, 0, 0, 0]),
        from_fresh(BAGS, &p8, &[0, 0, 0, 0]).bags(1, &[0, 4]),
    ];
    let p9 = record_of(1, &[(State::Waiting, 0, 4)]);
    for kind in [CLOCK, ASKED, WAITING, STEP, RUN, LOST] {
        drafts.push(Draft::new(kind).table(&p8).record(&p9));
    }
    drafts
}

/// P11: both files, and the first one written.
fn files() -> Vec<Draft> {
    let first = file::bytes_of(&p1());
    let mut second = first.clone();
    second[2] = 2;
    vec![Draft::new(READ).list(&first), Draft::new(READ).list(&second), Draft::new(WRITE).table(&p1()).room(16)]
}
