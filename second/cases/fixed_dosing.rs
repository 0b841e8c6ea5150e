//! Bag reports that are accepted: which jobs a bag looks at, its marks, and the shares.

use super::draft::*;
use super::faults::BASE;
use super::fixed_examples::{from_fresh, p1, P2_REPORTS};
use super::reports;
use crate::form::{LARGEST_BODY, SPANS_PLACE};
use crate::rule;
use crate::table::Table;

/// A dosing row (5,3,1) and how its jobs can go, each in five slots: done at the first, the second and the last unit,
/// reported failed at the first and the last unit, and overrun.
const DONE: [[u8; 5]; 3] = [[1, 0, 0, 0, 0], [0, 1, 0, 0, 0], [0, 0, 1, 0, 0]];
const FELL: [[u8; 5]; 3] = [[2, 0, 0, 0, 0], [0, 0, 2, 0, 0], [0, 0, 0, 0, 0]];

pub fn drafts() -> Vec<Draft> {
    let mut drafts = empty_lists();
    drafts.extend(deadlines());
    drafts.extend(marks());
    drafts.extend(single_jobs());
    drafts.extend(no_divisor());
    drafts.extend(quotients());
    drafts.extend(many_rows());
    drafts.extend(past_the_end());
    drafts.push(largest());
    drafts
}

/// No bag, no slot, and neither.
fn empty_lists() -> Vec<Draft> {
    let mut drafts = Vec::new();
    for row in [1, 2] {
        for reports in [&[][..], &P2_REPORTS] {
            drafts.push(from_fresh(BAGS, &p1(), reports).bags(row, &[]));
        }
    }
    drafts.push(from_fresh(BAGS, &p1(), &[]).bags(1, &[]).room(2));
    drafts
}

/// Deadlines just before, at and after a bag's start, and at its end: P2's row 1 has them at 5 and 10, its row 2 at 6.
/// Bags of one slot each, of more, with gaps and without, and the last one up to the last slot run.
fn deadlines() -> Vec<Draft> {
    let lists: [&[u64]; 8] = [
        &[0, 1, 1, 2, 2, 3, 3, 4, 4, 5, 5, 6, 6, 7, 7, 8, 8, 9, 9, 10],
        &[0, 4, 4, 5, 5, 6, 6, 10],
        &[0, 5, 5, 10],
        &[0, 6, 6, 10],
        &[1, 5, 6, 9],
        &[0, 4, 5, 9],
        &[4, 6, 9, 10],
        &[0, 10],
    ];
    let mut drafts = Vec::new();
    for row in [1, 2] {
        for spans in lists {
            drafts.push(from_fresh(BAGS, &p1(), &P2_REPORTS).bags(row, spans));
        }
    }
    drafts
}

/// All four marks, and bytes past the pairs: the dosing row is done, overruns, is done and fails in turn, beside a
/// second row that is aborted all along.
fn marks() -> Vec<Draft> {
    let table = table_of(&[(5, 3, 1), (10, 6, 1)]);
    let reports = [DONE[0], FELL[2], DONE[2], FELL[0]].concat().repeat(2);
    let lists: [&[u64]; 5] = [
        &[0, 5, 5, 10, 10, 14, 14, 20],
        &[0, 20, 21, 24, 26, 30, 30, 35, 36, 39],
        &[4, 6, 9, 11, 14, 16, 19, 21, 24, 26, 29, 31, 34, 36, 39, 40],
        &[5, 40],
        &[39, 40],
    ];
    let mut drafts = Vec::new();
    for spans in lists {
        for row in [1, 2] {
            drafts.push(from_fresh(BAGS, &table, &reports).bags(row, spans).room(spans.len() / 2 + usize::from(row)));
        }
    }
    drafts
}

/// One job that ends in each way, alone in its bag, at its deadline and one slot before that: it counts once its
/// deadline has come. The last ones are aborted: after three units, and before the first.
fn single_jobs() -> Vec<Draft> {
    let mut drafts = Vec::new();
    let ways = DONE.iter().chain(&FELL).map(|reports| (table_of(&[(5, 3, 1)]), *reports));
    let aborted = [(table_of(&[(5, 4, 2)]), [0; 5]), (table_of(&[(5, 1, 5)]), [0; 5])];
    for (table, reports) in ways.chain(aborted) {
        drafts.push(from_fresh(BAGS, &table, &reports).bags(1, &[0, 5]));
        drafts.push(from_fresh(BAGS, &table, &reports[..4]).bags(1, &[0, 4]));
    }
    drafts
}

/// Divisors of 0: no deadline has come, or every job was reported failed or overran; and of 1, by one job more that was
/// aborted or done.
fn no_divisor() -> Vec<Draft> {
    let mut drafts = Vec::new();
    for slots in [1, 4, 5, 6] {
        drafts.push(from_fresh(BAGS, &p1(), &vec![0; slots]).bags(2, &[]));
    }
    let fell = FELL.concat();
    let table = table_of(&[(5, 3, 1)]);
    drafts.push(from_fresh(BAGS, &table, &fell).bags(1, &[0, 15]));
    drafts.push(from_fresh(BAGS, &table, &[fell.clone(), DONE[1].to_vec()].concat()).bags(1, &[0, 15, 15, 20]));
    // With four units, three going on are no overrun any more: the alternate aborts the last of the three jobs.
    drafts.push(from_fresh(BAGS, &table_of(&[(5, 4, 2)]), &fell).bags(1, &[0, 10, 10, 15]));
    drafts
}

/// Quotients whose bits need rounding, up and down, and those that don't, of a row (2,2,1): so many jobs are done in
/// their first slot, so many aborted in their second, and so many failed.
fn quotients() -> Vec<Draft> {
    let counts = [(1, 2, 0), (2, 1, 0), (1, 9, 0), (3, 7, 1), (5, 2, 3), (6, 5, 0), (3, 1, 0), (25, 24, 2), (28, 1, 9)];
    let mut drafts = Vec::new();
    for (done, aborted, failed) in counts {
        let reports = [[1, 0].repeat(done), [0, 0].repeat(aborted), [2, 0].repeat(failed)].concat();
        let slots = reports.len() as u64;
        drafts.push(from_fresh(BAGS, &table_of(&[(2, 2, 1)]), &reports).bags(1, &[0, slots - 1, slots - 1, slots]));
    }
    drafts
}

/// Sixteen rows, each of whose jobs ends in its own way, with the first, a middle and the last one as the dosing row.
fn many_rows() -> Vec<Draft> {
    let table = table_of(&[(32, 2, 1); 16]);
    let reports = right_reports(&table, 130);
    let spans = [0, 31, 31, 32, 32, 96, 97, 127, 128, 130];
    [1, 2, 9, 16].iter().map(|row| from_fresh(BAGS, &table, &reports).bags(*row, &spans)).collect()
}

/// Runs past the end of a cycle of 12, once and several times, and of one of 30; bags that lie across it.
fn past_the_end() -> Vec<Draft> {
    let mut drafts = Vec::new();
    for table in [table_of(&BASE), table_of(&[(4, 4, 1), (6, 6, 2), (12, 12, 1)])] {
        let reports = right_reports(&table, 48);
        for row in 1..=3 {
            drafts.push(from_fresh(BAGS, &table, &reports[..25]).bags(row, &[0, 11, 11, 13, 13, 24]));
            drafts.push(from_fresh(BAGS, &table, &reports).bags(row, &[10, 14, 24, 36, 36, 37, 37, 48]));
        }
    }
    drafts.push(from_fresh(BAGS, &p1(), &[0; 65]).bags(1, &[0, 30, 30, 60, 60, 65]));
    drafts.push(from_fresh(BAGS, &p1(), &right_reports(&p1(), 65)).bags(2, &[0, 29, 29, 31, 31, 59, 60, 65]));
    drafts
}

/// Reports that are never refused; a table that is refused would have none.
fn right_reports(table: &Table, slots: usize) -> Vec<u8> {
    rule::check(table).map_or(Vec::new(), |checked| reports::steady(&checked, slots))
}

/// The largest case: over eight thousand jobs of a row, of which each third one is done, and the others aborted.
fn largest() -> Draft {
    let spans = [0, 8_192, 8_192, 8_194, 8_194, 8_196, 8_196, 16_000];
    let turns = [1, 0, 0, 0, 0, 0];
    let slots = LARGEST_BODY - SPANS_PLACE - 8 * spans.len();
    let reports: Vec<u8> = turns.iter().copied().cycle().take(slots).collect();
    from_fresh(BAGS, &table_of(&[(2, 2, 1)]), &reports).bags(1, &spans)
}
