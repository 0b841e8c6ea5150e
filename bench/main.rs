//! Times the library's run of lists of reports beside the plain Rust run of the second program and beside the
//! library's single slots, and its bag report beside two runs, after holding them to each other. `bench/run` builds it
//! and starts it.

mod bagged;
#[path = "../second/bags.rs"]
#[allow(dead_code)]
mod bags;
#[path = "../second/file.rs"]
#[allow(dead_code)]
mod file;
#[path = "../second/kept.rs"]
mod kept;
mod library;
mod lists;
#[path = "../second/numbers.rs"]
#[allow(dead_code)]
mod numbers;
#[path = "../second/record.rs"]
mod record;
#[path = "../second/refusal.rs"]
#[allow(dead_code)]
mod refusal;
#[path = "../second/rule.rs"]
#[allow(dead_code)]
mod rule;
#[path = "../second/run.rs"]
#[allow(dead_code)]
mod run;
#[path = "../second/table.rs"]
#[allow(dead_code)]
mod table;

use lists::{Reports, Task, LISTS};
use std::process;
use std::time::Instant;

/// Each time is the best of so many; the sides take turns, so that what slows the machine down meets all of them.
const ROUNDS: usize = 9;

/// How much over the runs' bar the bag report's ratio may be: it reads each slot's log byte and report once more.
const TELLING: f64 = 0.5;

/// What lent memory holds before a run: no row's number and no log byte.
const BEFORE: u8 = 238;

/// A list with all that the sides are called with.
struct Case {
    table: table::Table,
    start: record::Record,
    file: Vec<u8>,
    reports: Vec<u8>,
    /// How many of the reports single slots are run on.
    single_slots: usize,
    cycle: usize,
}

/// Nanoseconds for a slot, and beside them the nanoseconds of the library's run of an empty list: what it does before the
/// first slot.
struct Times {
    library: f64,
    rust: f64,
    single: f64,
    entry: f64,
    report: f64,
}

/// What is printed of a list.
struct Line<'a> {
    task: &'a Task,
    reports: Reports,
    slots: usize,
    times: Times,
}

fn main() {
    print_runs_head();
    let tasks = lists::tasks();
    let mut lines = Vec::new();
    let mut all_within = true;
    for task in &tasks {
        for (reports, slots) in LISTS.into_iter().zip(task.slots) {
            let case = case(task, reports, slots);
            hold_together(&case).unwrap_or_else(|trouble| stop(task, reports, &trouble));
            let line = Line { task, reports, slots, times: measure(&case) };
            all_within &= print_runs(&line);
            lines.push(line);
        }
    }
    print_report_head();
    for line in &lines {
        all_within &= print_report(line);
    }
    process::exit(if all_within { 0 } else { 1 });
}

fn stop(task: &Task, reports: Reports, trouble: &str) -> ! {
    eprintln!("bench: {}, {}: {}", task.name, reports.name(), trouble);
    process::exit(2);
}

fn case(task: &Task, reports: Reports, slots: usize) -> Case {
    let checked = rule::check(&task.table).unwrap_or_else(|refusal| stop(task, reports, &format!("{:?}", refusal)));
    Case {
        table: task.table.clone(),
        start: record::fresh(&checked.rows),
        file: file::bytes_of(&task.table),
        reports: lists::list(&checked, reports, slots),
        single_slots: task.single_slots,
        cycle: checked.cycle,
    }
}

/// The two runs leave the same slots, logs, buffers and records, single slots the same log, and the bag report tells of
/// it. It also warms the sides up.
fn hold_together(case: &Case) -> Result<(), String> {
    let slots = case.reports.len();
    let (mut log, mut buffer) = lent(case);
    let (mut rust_log, mut rust_buffer) = lent(case);
    let ran = kept::run(&case.table, &case.start, &case.reports, &mut rust_log, &mut rust_buffer);
    same("refusal of plain Rust", &ran.refusal, &refusal::NONE)?;
    same("slots of plain Rust", &ran.slots, &slots)?;
    same("slots", &library::run(&case.file, &case.reports, &mut log, &mut buffer), &slots)?;
    same("log", &log, &rust_log)?;
    same("buffer", &buffer, &rust_buffer)?;
    let record = library::record_after(&case.file, &case.reports, &mut log, &mut buffer);
    same("record", &record, &ran.record)?;
    let mut single_log = vec![BEFORE; case.single_slots];
    let first = &case.reports[..case.single_slots];
    same("slots of single slots", &library::steps(&case.file, first, &mut single_log), &case.single_slots)?;
    same("log of single slots", &single_log[..], &log[..case.single_slots])?;
    bagged::hold_to_second(&case.table, &case.file, first)?;
    bagged::hold_to_log(&case.table, &case.file, &case.reports, &rust_log)
}

/// The lent log and the lent buffer before a run.
fn lent(case: &Case) -> (Vec<u8>, Vec<u8>) {
    (vec![BEFORE; case.reports.len()], vec![BEFORE; case.cycle])
}

fn same<T: PartialEq + ?Sized>(what: &str, one: &T, other: &T) -> Result<(), String> {
    if one == other {
        Ok(())
    } else {
        Err(format!("the {} is not the same", what))
    }
}

fn measure(case: &Case) -> Times {
    let slots = case.reports.len();
    let first = &case.reports[..case.single_slots];
    let (mut log, mut buffer) = lent(case);
    let mut marks = bagged::marks();
    let mut times = Times { library: f64::MAX, rust: f64::MAX, single: f64::MAX, entry: f64::MAX, report: f64::MAX };
    for _ in 0..ROUNDS {
        let library = time(slots, || library::run(&case.file, &case.reports, &mut log, &mut buffer));
        times.library = times.library.min(library);
        let rust = time(slots, || kept::run(&case.table, &case.start, &case.reports, &mut log, &mut buffer).slots);
        times.rust = times.rust.min(rust);
        let single = time(first.len(), || library::steps(&case.file, first, &mut log));
        times.single = times.single.min(single);
        let entry = time(0, || library::run(&case.file, &[], &mut log, &mut buffer));
        times.entry = times.entry.min(entry);
        let report = time(slots, || bagged::report(&case.file, &case.reports, &mut marks));
        times.report = times.report.min(report);
    }
    times
}

/// Nanoseconds for each of so many slots, all of which must be accepted; of no slots, nanoseconds in all.
fn time(slots: usize, run: impl FnOnce() -> usize) -> f64 {
    let start = Instant::now();
    let accepted = run();
    let taken = start.elapsed();
    assert_eq!(accepted, slots, "a list that was accepted before");
    taken.as_nanos() as f64 / slots.max(1) as f64
}

fn print_runs_head() {
    println!(
        "nanoseconds for a slot, the best of {} rounds; entry: the part of the library's time before its first slot",
        ROUNDS
    );
    println!(
        "{:<16}{:<13}{:>9}{:>10}{:>9}{:>12}{:>8}{:>14}{:>8}   bar",
        "table", "reports", "slots", "library", "entry", "plain Rust", "ratio", "single slots", "times"
    );
}

/// Prints a line of the runs, and answers whether its figures are within their bar.
fn print_runs(line: &Line) -> bool {
    let (task, times) = (line.task, &line.times);
    let ratio = times.library / times.rust;
    let faster = times.single / times.library;
    let within = ratio < task.under && task.least.map_or(true, |least| faster >= least);
    let least = task.least.map_or(String::new(), |least| format!(", times at least {}", least));
    println!(
        "{:<16}{:<13}{:>9}{:>10.1}{:>8.2}%{:>12.1}{:>8.2}{:>14.0}{:>8.0}   {}: ratio under {:.1}{}",
        task.name,
        line.reports.name(),
        line.slots,
        times.library,
        100.0 * times.entry / (times.library * line.slots as f64),
        times.rust,
        ratio,
        times.single,
        faster,
        said(within),
        task.under,
        least
    );
    within
}

fn print_report_head() {
    println!(
        "\nbag report: {} bags of row {}, beside two of the runs above, for it runs a list twice",
        bagged::BAGS,
        bagged::ROW
    );
    println!(
        "{:<16}{:<13}{:>9}{:>12}{:>14}{:>8}{:>17}{:>8}   bar",
        "table", "reports", "slots", "bag report", "library twice", "ratio", "plain Rust twice", "ratio"
    );
}

/// Prints a line of the bag report, and answers whether it is within the bar of two runs of plain Rust.
fn print_report(line: &Line) -> bool {
    let (task, times) = (line.task, &line.times);
    let ratio = times.report / (2.0 * times.rust);
    let under = task.under + TELLING;
    let within = ratio < under;
    println!(
        "{:<16}{:<13}{:>9}{:>12.1}{:>14.1}{:>8.2}{:>17.1}{:>8.2}   {}: ratio under {:.1}",
        task.name,
        line.reports.name(),
        line.slots,
        times.report,
        2.0 * times.library,
        times.report / (2.0 * times.library),
        2.0 * times.rust,
        ratio,
        said(within),
        under
    );
    within
}

fn said(within: bool) -> &'static str {
    if within {
        "within"
    } else {
        "NOT within"
    }
}
