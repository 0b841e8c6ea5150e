//! The examples P1 to P11 of document 01, the binary form, the counts, and the program's own cases.

use crate::answers;
use crate::cases::{self, draft::table_of, fixed_examples::p1};
use crate::counts;
use crate::file;
use crate::form::{Input, Next};
use crate::kept;
use crate::record::{self, Entry, Record, State};
use crate::refusal::{self, Refusal};
use crate::rule;
use crate::run::{self, Course};
use crate::table::{Checked, Table};
use std::io::{self, Write};

fn checked(table: &Table) -> Checked {
    rule::check(table).unwrap_or_else(|refusal| panic!("refused: {:?}", refusal))
}

fn refused(table: &Table) -> Refusal {
    rule::check(table).err().unwrap_or(refusal::NONE)
}

fn from_fresh(table: &Table, reports: &[u8]) -> Course {
    let checked = checked(table);
    run::course(&checked, &record::fresh(&checked.rows), reports)
}

/// The slots that a row holds.
fn held(holders: &[u8], row: u8) -> Vec<usize> {
    (0..holders.len()).filter(|slot| holders[*slot] == row).collect()
}

/// The answer lines of an input.
fn lines(input: &[u8]) -> String {
    let mut out = Vec::new();
    answers::answer_all(input, &mut out).expect("a vector takes every byte");
    String::from_utf8(out).expect("answers are plain text")
}

#[test]
fn p1_first_slots() {
    let checked = checked(&p1());
    assert_eq!(checked.cycle, 30);
    assert_eq!(rule::first_slots(&checked), [4, 9, 14, 19, 24, 29, 3, 10, 16, 22, 27]);
}

#[test]
fn p2_log() {
    let course = from_fresh(&p1(), &[0, 2, 0, 0, 0, 0, 0, 1, 0, 1]);
    assert_eq!(course.refusal, refusal::NONE);
    assert_eq!(course.log, [1, 1, 2, 18, 17, 18, 1, 1, 2, 2]);
    // Row 2's first primary is aborted after one unit; row 1's first one failed by itself.
    assert_eq!(course.lost, 1);
}

#[test]
fn p3_log_and_moved_first_slot() {
    let course = from_fresh(&p1(), &[0, 1, 0, 1, 0]);
    assert_eq!(course.refusal, refusal::NONE);
    assert_eq!(course.log, [1, 1, 2, 2, 0]);
    let checked = checked(&p1());
    let before = rule::reserve_fresh(&checked).holders;
    assert_eq!(held(&before, 2)[0], 3);
    let after_slot_1 = from_fresh(&p1(), &[0, 1]).record;
    assert_eq!(held(&record::reserve(&checked, &after_slot_1).holders, 2)[0], 4);
}

#[test]
fn p4_tight_and_p5_accepted() {
    assert_eq!(refused(&table_of(&[(4, 1, 2), (6, 1, 3)])), Refusal { number: 7, row: 2 });
    let checked = checked(&table_of(&[(4, 1, 2), (6, 1, 2)]));
    assert_eq!(held(&rule::reserve_fresh(&checked).holders, 2), [4, 5, 8, 9]);
}

#[test]
fn p6_and_p7_cycles() {
    assert_eq!(checked(&table_of(&[(63, 1, 1), (64, 1, 1)])).cycle, 4032);
    assert_eq!(refused(&table_of(&[(64, 1, 1), (65, 1, 1)])), Refusal { number: 6, row: 0 });
}

#[test]
fn p8_primary_never_runs() {
    let course = from_fresh(&table_of(&[(4, 1, 4)]), &[0, 0, 0, 0]);
    assert_eq!(course.refusal, refusal::NONE);
    assert_eq!(course.log, [17, 17, 17, 17]);
}

#[test]
fn p9_unsound_record() {
    let mut record = record::fresh(&[]);
    record.clock = 1;
    record.entries[0] = Entry { state: State::Waiting, u: 0, left: 4 };
    let refusal = record::check(&table_of(&[(4, 1, 4)]), &record).err();
    assert_eq!(refusal, Some(Refusal { number: 9, row: 0 }));
}

#[test]
fn p10_stray_report() {
    let course = from_fresh(&p1(), &[0, 2, 0, 1]);
    assert_eq!(course.refusal, Refusal { number: 11, row: 0 });
    assert_eq!(course.log, [1, 1, 2]);
    assert_eq!(course.record, from_fresh(&p1(), &[0, 2, 0]).record);
}

#[test]
fn p11_files() {
    let mut bytes = [0, 14, 1, 2, 0, 5, 0, 2, 0, 1, 0, 6, 0, 2, 0, 2];
    assert_eq!(file::read(&bytes), Ok(p1()));
    assert_eq!(file::bytes_of(&p1()), bytes);
    bytes[2] = 2;
    assert_eq!(file::read(&bytes), Err(Refusal { number: 13, row: 0 }));
}

/// The case that the page of the binary form works out, without its length field.
fn worked_example() -> Vec<u8> {
    let mut body = vec![10, 0, 0, 0, 2, 0, 5, 0, 2, 0, 1, 0, 6, 0, 2, 0, 2];
    body.resize(body.len() + 84, 0);
    body.extend_from_slice(&[0, 3, 1, 0, 2, 0, 1, 0, 0, 1, 0, 2]);
    body
}

#[test]
fn form_of_the_worked_example() {
    let body = worked_example();
    let case = [&[0, 0x71], body.as_slice()].concat();
    assert_eq!(case.len(), 115);
    assert_eq!(lines(&case), "asked 0 0 18\n");
}

#[test]
fn form_of_an_input_that_is_cut_off() {
    let whole = [&[0, 0x71], worked_example().as_slice()].concat();
    assert_eq!(lines(&[]), "");
    assert_eq!(lines(&whole[..1]), "cut off\n");
    assert_eq!(lines(&whole[..114]), "cut off\n");
    let two = [whole.as_slice(), &whole[..50]].concat();
    assert_eq!(lines(&two), "asked 0 0 18\ncut off\n");
}

#[test]
fn form_of_a_case_that_is_too_long() {
    assert_eq!(lines(&[0, 1, 7, 0x40, 1]), "read 12 0 0".to_string() + &" 0/0/0".repeat(16) + "\ntoo long\n");
    let mut largest = vec![0x40, 0, 200];
    assert_eq!(lines(&largest), "cut off\n");
    largest.resize(2 + 16_384, 0);
    assert_eq!(lines(&largest), "unknown 200\n");
}

#[test]
fn form_of_short_bodies() {
    assert_eq!(lines(&[0, 0]), "unknown 0\n");
    assert_eq!(lines(&[0, 1, 1]), "gcd 0\n");
    assert_eq!(lines(&[0, 5, 1, 0, 0, 0, 1]), "gcd 256\n");
    assert_eq!(lines(&[0, 1, 4]), "list 1 0 0 00010203\n");
    assert_eq!(lines(&[0, 2, 5, 255]), "firsts 1 0 0 ffff000000010002\n");
}

#[test]
fn lent_memory_keeps_what_is_not_used() {
    // (2,1,1) with a fill of 254 and a room of 3: two bytes are used.
    let case = [0, 11, 4, 254, 0, 3, 1, 0, 2, 0, 1, 0, 1];
    assert_eq!(lines(&case), "list 0 0 2 00010001020304\n");
}

#[test]
fn form_of_a_run() {
    // (2,1,1) from fresh with a fill of 254: one byte of log, and three of buffer, of which two are used.
    let mut case = vec![0, 186, 13, 254, 0, 1, 1, 0, 2, 0, 1, 0, 1];
    case.resize(2 + 101, 0);
    case.extend_from_slice(&[0, 0, 0, 0, 0, 0, 1]);
    case.resize(2 + 183, 0);
    case.extend_from_slice(&[0, 3, 0]);
    let record = "1 f1/1".to_string() + &" w0/0".repeat(15);
    assert_eq!(lines(&case), format!("run 0 0 1 {} 01ff000102 00010001020304\n", record));
    // With one of buffer it is refused, and both are as they were.
    case[2 + 184] = 1;
    let record = "0 w0/1".to_string() + &" w0/0".repeat(15);
    assert_eq!(lines(&case), format!("run 8 0 0 {} feff000102 feff000102\n", record));
}

#[test]
fn p3_buffer_after_slot_1() {
    let mut log = [0; 2];
    let mut buffer = [99; 31];
    let ran = kept::run(&p1(), &record::fresh(p1().used()), &[0, 1], &mut log, &mut buffer);
    assert_eq!((ran.refusal, ran.slots, log), (refusal::NONE, 2, [1, 1]));
    assert_eq!(held(&buffer, 1), [9, 14, 19, 24, 29]);
    assert_eq!(held(&buffer, 2), [4, 5, 10, 11, 16, 17, 22, 23, 27, 28]);
    assert_eq!(held(&buffer, 99), [30]);
}

#[test]
fn lost_units_are_those_of_aborted_primaries() {
    // Going on to the last unit is an overrun and report 2 is a failure: neither is an abort.
    assert_eq!(from_fresh(&table_of(&[(4, 2, 1)]), &[0, 0, 0, 0]).lost, 0);
    assert_eq!(from_fresh(&table_of(&[(4, 3, 1)]), &[0, 2, 0, 0]).lost, 0);
    // At slot 3 a primary that has run three of its four units is aborted, and counts at once.
    assert_eq!(from_fresh(&table_of(&[(4, 4, 1)]), &[0, 0, 0, 0]).lost, 3);
    assert_eq!(from_fresh(&table_of(&[(4, 4, 1)]), &[0, 0, 0]).lost, 0);
}

#[test]
fn refused_tables_give_the_number_and_row_they_are_made_for() {
    for fault in cases::faults::single().iter().chain(&cases::faults::double()) {
        let expected = Refusal { number: fault.number, row: fault.row };
        assert_eq!(refused(&fault.table), expected, "{:?}", fault.table);
    }
    for table in cases::faults::accepted() {
        assert_eq!(refused(&table), refusal::NONE, "{:?}", table);
    }
}

/// The record after each slot of a long run is sound again, whatever the reports.
#[test]
fn sound_records_stay_sound() {
    for table in cases::faults::accepted().iter().filter(|table| table.rows[0].period < 60) {
        let checked = checked(table);
        let mut record: Record = record::fresh(&checked.rows);
        for slot in 0..200_u32 {
            let wanted = (slot * slot % 7 % 3) as u8;
            let next = run::step(&checked, &record, wanted).or_else(|_| run::step(&checked, &record, 0));
            record = next.map(|slot| slot.next).unwrap_or(record);
            assert!(record::is_sound(&checked, &record), "{:?} of {:?}", record, table);
        }
    }
}

/// The bytes that a writer of cases gives.
fn made(write: fn(u64, u64, &mut dyn Write) -> io::Result<()>, seed: u64, n: u64) -> Vec<u8> {
    let mut bytes = Vec::new();
    write(seed, n, &mut bytes).expect("a vector takes every byte");
    bytes
}

#[test]
fn counts_tell_what_is_missing() {
    let all = made(cases::write_all, 3, 1_600);
    assert!(counts::report(&all).1);
    let (text, complete) = counts::report(&all[..all.len() - 1]);
    assert!(!complete && text.contains("the input is cut off"));
    let (text, complete) = counts::report(&[]);
    assert!(!complete && text.contains("missing: no case of run is answered 9\n"));
    // Without the last kind every other number is still met.
    let mut input = Input::new(&all);
    let mut others = Vec::new();
    while let Next::Body(body) = input.take() {
        if body.first() != Some(&cases::draft::BAGS) {
            others.extend_from_slice(&(body.len() as u16).to_be_bytes());
            others.extend_from_slice(body);
        }
    }
    let (text, complete) = counts::report(&others);
    assert!(!complete && text.matches("missing: ").count() == text.matches("missing: no case of bags").count());
    assert_eq!(text.matches("missing: ").count(), 13);
}

#[test]
fn cases_are_the_same_for_a_seed_and_a_smaller_number_cuts_them_short() {
    for write in [cases::write_all, cases::write_fresh] {
        let long = made(write, 7, 1_600);
        assert_eq!(long, made(write, 7, 1_600));
        assert!(long.starts_with(&made(write, 7, 100)));
        assert_ne!(long, made(write, 8, 1_600));
        assert_eq!(lines(&long).lines().count(), 1_600);
    }
}
