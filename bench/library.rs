//! The library's side, from the crate `bench`: a slice crosses as a pointer and a length.

use crate::record::{Entry, Record, State};
use crate::table::MOST_ROWS;

extern "C" {
    fn bench_run(
        file: *const u8,
        file_length: usize,
        reports: *const u8,
        reports_length: usize,
        log: *mut u8,
        log_length: usize,
        buffer: *mut u8,
        buffer_length: usize,
        i: usize,
    ) -> u64;

    fn bench_steps(
        file: *const u8,
        file_length: usize,
        reports: *const u8,
        reports_length: usize,
        log: *mut u8,
        log_length: usize,
    ) -> usize;

    fn bench_bags(
        file: *const u8,
        file_length: usize,
        reports: *const u8,
        reports_length: usize,
        row: u8,
        size: u16,
        marks: *mut u8,
        marks_length: usize,
        i: usize,
    ) -> u64;
}

/// A run from the fresh record of the file's table; answers one figure of it: a row's job, at 16 the clock, past it the
/// slots accepted.
fn figure(file: &[u8], reports: &[u8], log: &mut [u8], buffer: &mut [u8], i: usize) -> u64 {
    // Safe here and below: each pointer stands beside its slice's length, and it is proved that no other place is used.
    unsafe {
        bench_run(
            file.as_ptr(),
            file.len(),
            reports.as_ptr(),
            reports.len(),
            log.as_mut_ptr(),
            log.len(),
            buffer.as_mut_ptr(),
            buffer.len(),
            i,
        )
    }
}

/// The slots that a run accepts.
pub fn run(file: &[u8], reports: &[u8], log: &mut [u8], buffer: &mut [u8]) -> usize {
    figure(file, reports, log, buffer, MOST_ROWS + 1) as usize
}

/// The record after the same run, which is run again for each figure of it.
pub fn record_after(file: &[u8], reports: &[u8], log: &mut [u8], buffer: &mut [u8]) -> Record {
    let mut figure = |i| figure(file, reports, log, buffer, i);
    let mut entries = [entry(0); MOST_ROWS];
    for (i, place) in entries.iter_mut().enumerate() {
        *place = entry(figure(i));
    }
    Record { clock: figure(MOST_ROWS) as u16, entries }
}

/// A figure is (left × 65,536 + u) × 3 and the state's number.
fn entry(figure: u64) -> Entry {
    let state = match figure % 3 {
        0 => State::Waiting,
        1 => State::Failed,
        _ => State::Done,
    };
    Entry { state, u: (figure / 3 % 65_536) as u16, left: (figure / 3 / 65_536) as u16 }
}

/// The same slots by single ones, each from its record and table alone; answers how many were accepted.
pub fn steps(file: &[u8], reports: &[u8], log: &mut [u8]) -> usize {
    unsafe { bench_steps(file.as_ptr(), file.len(), reports.as_ptr(), reports.len(), log.as_mut_ptr(), log.len()) }
}

/// The report on bags of the same size, one for each lent byte, one after the other from slot 0; answers one figure of
/// it: a place's two counts, past the places the refusal's number.
fn bag_figure(file: &[u8], reports: &[u8], row: u8, size: u16, marks: &mut [u8], i: usize) -> u64 {
    unsafe {
        bench_bags(
            file.as_ptr(),
            file.len(),
            reports.as_ptr(),
            reports.len(),
            row,
            size,
            marks.as_mut_ptr(),
            marks.len(),
            i,
        )
    }
}

/// The number of the report's refusal, 0 for none.
pub fn bags(file: &[u8], reports: &[u8], row: u8, size: u16, marks: &mut [u8]) -> u64 {
    bag_figure(file, reports, row, size, marks, MOST_ROWS)
}

/// Each place's primaries done and jobs that count, by the same report, which is made again for each place. A figure is
/// done × 2^32 + of.
pub fn bag_counts(file: &[u8], reports: &[u8], row: u8, size: u16, marks: &mut [u8]) -> Vec<(u32, u32)> {
    let figures = (0..MOST_ROWS).map(|i| bag_figure(file, reports, row, size, marks, i));
    figures.map(|figure| ((figure >> 32) as u32, figure as u32)).collect()
}
