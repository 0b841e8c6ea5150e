//! The kept run held to the plain one, whose reservations are worked out anew at each slot.

use crate::cases;
use crate::form::{Body, Input, Next, RUN_REPORT_PLACE};
use crate::kept::{self, Ran};
use crate::record::{self, Record};
use crate::run;
use crate::table::Table;

/// What a run answers and leaves in the lent log and buffer.
type After = (Ran, Vec<u8>, Vec<u8>);

/// The same answers, log and buffer from the slots one by one and the reservations of the record after them.
fn run_anew(table: &Table, given: &Record, reports: &[u8], log: &mut [u8], buffer: &mut [u8]) -> Ran {
    let checked = match kept::admit(table, given, reports, log, buffer) {
        Ok(checked) => checked,
        Err(refusal) => return Ran { refusal, slots: 0, record: *given },
    };
    let course = run::course(&checked, given, reports);
    let slots = course.log.len();
    log[..slots].copy_from_slice(&course.log);
    buffer[..checked.cycle].copy_from_slice(&record::reserve(&checked, &course.record).holders);
    Ran { refusal: course.refusal, slots, record: course.record }
}

/// A case's run by one of the two, over memory that holds no number of a row.
fn after(body: &Body, run: fn(&Table, &Record, &[u8], &mut [u8], &mut [u8]) -> Ran) -> After {
    let mut log = vec![99; body.room()];
    let mut buffer = vec![99; body.buffer_room()];
    let reports = body.list_at(RUN_REPORT_PLACE);
    let ran = run(&body.table(), &body.record(), reports, &mut log, &mut buffer);
    (ran, log, buffer)
}

#[test]
fn kept_runs_are_those_worked_out_anew() {
    let mut cases = Vec::new();
    cases::write_all(5, 12_000, &mut cases).expect("a vector takes every byte");
    cases::write_fresh(6, 20_000, &mut cases).expect("a vector takes every byte");
    let mut input = Input::new(&cases);
    let mut accepted = 0;
    while let Next::Body(bytes) = input.take() {
        let body = Body::new(bytes);
        if body.kind() == cases::draft::RUN {
            let kept = after(&body, kept::run);
            assert_eq!(kept, after(&body, run_anew), "{:?}", bytes);
            accepted += kept.0.slots;
        }
    }
    assert!(accepted > 50_000, "only {} slots were run", accepted);
}
