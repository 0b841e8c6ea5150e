//! Bag reports worked out by hand, and every report of the program's own cases held to a count of another kind.

use crate::answers;
use crate::bags::{self, BagReport, Share, FIXED, MIXED, MODELLED, NO_JOB};
use crate::cases::{self, draft::table_of, fixed_examples::p1, fixed_examples::P2_REPORTS};
use crate::file;
use crate::form::{Body, Input, Next, DOSING_PLACE};
use crate::record::{self, State};
use crate::refusal::{self, Refusal};
use crate::rule;
use crate::run::{self, Work};
use crate::table::{Checked, Table, MOST_ROWS};

/// What stands at places past the last row, and at a row with divisor 0.
const NO_SHARE: Share = Share { mark: 16, done: 0, of: 0, share: 0.0 };

/// The marks of so many lent bytes, which held 99, and the shares.
fn reported(table: &Table, reports: &[u8], row: u8, spans: &[u64], room: usize) -> (BagReport, Vec<u8>) {
    let mut marks = vec![99; room];
    let report = bags::report(table, reports, row, spans, &mut marks);
    (report, marks)
}

/// The marks of an accepted report, a byte for each pair.
fn marks(table: &Table, reports: &[u8], row: u8, spans: &[u64]) -> Vec<u8> {
    let (report, marks) = reported(table, reports, row, spans, spans.len() / 2);
    assert_eq!(report.refusal, refusal::NONE);
    marks
}

fn share(done: u32, of: u32, share: f64) -> Share {
    Share { mark: 0, done, of, share }
}

#[test]
fn p2_bags_and_shares() {
    // Row 1's jobs have their deadlines at 5, failed, and at 10, done; row 2's first one, aborted, has it at 6.
    let row_1 = [0, 4, 4, 5, 5, 9, 9, 10];
    assert_eq!(marks(&p1(), &P2_REPORTS, 1, &row_1), [NO_JOB, FIXED, NO_JOB, MODELLED]);
    assert_eq!(marks(&p1(), &P2_REPORTS, 1, &[0, 10]), [MIXED]);
    assert_eq!(marks(&p1(), &P2_REPORTS, 2, &[0, 5, 5, 6, 6, 10]), [NO_JOB, FIXED, NO_JOB]);
    // Row 1: of two jobs the one that failed doesn't count. Row 2: an aborted one does.
    let (report, _) = reported(&p1(), &P2_REPORTS, 1, &[], 0);
    assert_eq!(report.shares[..2], [share(1, 1, 1.0), share(0, 1, 0.0)]);
    assert_eq!(report.shares[2..], [NO_SHARE; 14]);
}

#[test]
fn fourteen_bags_of_which_eleven_are_modelled() {
    // A row (5,3,1) beside a row (5,1,1): each bag has one job of row 1, and three of these are not done.
    let table = table_of(&[(5, 3, 1), (5, 1, 1)]);
    let mut jobs = [[0, 1, 0, 0, 0]; 14];
    jobs[3] = [0, 2, 0, 0, 0];
    jobs[7] = [0, 0, 0, 0, 0];
    jobs[12] = [2, 1, 0, 0, 0];
    let spans: Vec<u64> = (0..14).flat_map(|bag| [5 * bag, 5 * bag + 5]).collect();
    let mut expected = [MODELLED; 14];
    for bag in [3, 7, 12] {
        expected[bag] = FIXED;
    }
    assert_eq!(marks(&table, &jobs.concat(), 1, &spans), expected);
    // Of row 1 two failed and one overran. Row 2 overruns its one unit where it runs, but for its 13th job, which is
    // done in the slot after row 1's failure; its 8th is aborted: row 1 ran in every slot before its alternate's.
    let (report, _) = reported(&table, &jobs.concat(), 1, &spans, 14);
    assert_eq!(report.shares[..2], [share(11, 11, 1.0), share(1, 2, 0.5)]);
}

/// The example of the order desk, from the files in examples/: fourteen bags of twelve slots each, twelve slots without
/// a bag after the seventh.
#[test]
fn spring_order_of_the_examples() {
    let table = file::read(include_bytes!("../examples/spring-order.table")).expect("an accepted table");
    let text = include_str!("../examples/spring-order.reports");
    let digits = text.lines().flat_map(|line| line.split('#').next().unwrap_or("").chars());
    let reports: Vec<u8> = digits.filter_map(|digit| digit.to_digit(10)).map(|digit| digit as u8).collect();
    assert_eq!(reports.len(), 180);
    let starts = (0..84).step_by(12).chain((96..180).step_by(12));
    let spans: Vec<u64> = starts.flat_map(|start| [start, start + 12]).collect();
    let (report, marks) = reported(&table, &reports, 1, &spans, 14);
    // The 4th bag's models both failed, of the 9th's one overran and one was aborted, and one of the 12th's failed.
    let mut expected = [MODELLED; 14];
    expected[3] = FIXED;
    expected[8] = FIXED;
    expected[11] = MIXED;
    assert_eq!((report.refusal, marks), (refusal::NONE, expected.to_vec()));
    assert_eq!(report.shares[..3], [share(25, 26, 25.0 / 26.0), share(16, 17, 16.0 / 17.0), share(8, 12, 2.0 / 3.0)]);
}

#[test]
fn jobs_that_end_in_each_way() {
    // A row (4,2,1): done at the first unit and at the last, failed at them, and overrun.
    let table = table_of(&[(4, 2, 1)]);
    let ways = [1, 0, 0, 0, 0, 1, 0, 0, 2, 0, 0, 0, 0, 2, 0, 0, 0, 0, 0, 0];
    let spans = [0, 4, 4, 8, 8, 12, 12, 16, 16, 20];
    assert_eq!(marks(&table, &ways, 1, &spans), [MODELLED, MODELLED, FIXED, FIXED, FIXED]);
    assert_eq!(reported(&table, &ways, 1, &[], 0).0.shares[0], share(2, 2, 1.0));
    // With three units, (4,3,2), the last one is aborted after two, as is the second but for its done.
    let table = table_of(&[(4, 3, 2)]);
    assert_eq!(marks(&table, &ways, 1, &spans), [MODELLED, MODELLED, FIXED, FIXED, FIXED]);
    assert_eq!(reported(&table, &ways, 1, &[], 0).0.shares[0], share(2, 3, 2.0 / 3.0));
    // P8's primary never runs, and is aborted.
    assert_eq!(reported(&table_of(&[(4, 1, 4)]), &[0; 8], 1, &[], 0).0.shares[0], share(0, 2, 0.0));
}

#[test]
fn a_job_counts_once_its_deadline_has_come() {
    let table = table_of(&[(4, 2, 1)]);
    assert_eq!(reported(&table, &[1, 0, 0], 1, &[], 0).0.shares, [NO_SHARE; 16]);
    assert_eq!(reported(&table, &[1, 0, 0, 0], 1, &[], 0).0.shares[0], share(1, 1, 1.0));
    // One that has failed leaves a divisor of 0.
    assert_eq!(reported(&table, &[2, 0, 0, 0], 1, &[], 0).0.shares, [NO_SHARE; 16]);
}

#[test]
fn bytes_past_the_pairs_stay() {
    let (report, marks) = reported(&p1(), &P2_REPORTS, 1, &[0, 5, 5, 10], 4);
    assert_eq!((report.refusal, marks), (refusal::NONE, vec![FIXED, MODELLED, 99, 99]));
}

#[test]
fn refusals_in_their_order_write_nothing() {
    let tight = table_of(&[(4, 1, 2), (6, 1, 3)]);
    let p2: &[u8] = &P2_REPORTS;
    // Each has what the ones after it are refused by, but for the last ones, which show the causes of 15.
    let lists: [(&Table, &[u8], u8, &[u64], usize, Refusal); 9] = [
        (&tight, &[3], 0, &[5, 0, 0], 0, Refusal { number: 7, row: 2 }),
        (&p1(), &[3], 0, &[5, 0, 0], 0, Refusal { number: 8, row: 0 }),
        (&p1(), &[3], 0, &[5, 0, 0], 1, Refusal { number: 10, row: 0 }),
        (&p1(), &[0, 2, 0, 1], 0, &[5, 0, 0], 1, Refusal { number: 11, row: 0 }),
        (&p1(), p2, 0, &[5, 0, 0], 1, Refusal { number: 14, row: 0 }),
        (&p1(), p2, 3, &[5, 0, 0], 1, Refusal { number: 14, row: 0 }),
        (&p1(), p2, 2, &[5, 0, 0], 1, Refusal { number: 15, row: 0 }),
        (&p1(), p2, 2, &[0, 5, 4, 6], 2, Refusal { number: 15, row: 0 }),
        (&p1(), p2, 2, &[0, 11], 1, Refusal { number: 15, row: 0 }),
    ];
    for (table, reports, row, spans, room, refusal) in lists {
        let (report, marks) = reported(table, reports, row, spans, room);
        assert_eq!(report, BagReport { refusal, shares: [share(0, 0, 0.0); MOST_ROWS] });
        assert_eq!(marks, vec![99; room]);
    }
}

#[test]
fn spans_that_fit() {
    for (spans, slots) in [(&[][..], 0), (&[0, 1], 1), (&[0, 3, 3, 5, 7, 10], 10), (&[], 4_294_967_295)] {
        assert!(bags::fit(spans, slots), "{:?}", spans);
    }
    let most = u64::MAX;
    for spans in [&[0][..], &[0, 1, 2], &[3, 3], &[3, 2], &[0, 11], &[most, most], &[0, 3, 2, 5], &[4, 5, 0, 4]] {
        assert!(!bags::fit(spans, 10), "{:?}", spans);
    }
    // "more than 4,294,967,295 reports" are refused whatever the spans.
    assert!(!bags::fit(&[], 4_294_967_296));
    assert!(!bags::fit(&[0, 1], 4_294_967_296));
}

#[test]
fn form_of_a_bag_report() {
    // (2,2,1) with a fill of 254 and a room of 2, row 1, the bag from 1 to 6, and three jobs: aborted, done, done.
    let mut body = vec![16, 254, 0, 2, 1, 0, 2, 0, 2, 0, 1];
    body.resize(101, 0);
    body.extend_from_slice(&[1, 2, 0, 0, 0, 0, 0, 0, 0, 1, 0, 0, 0, 0, 0, 0, 0, 6, 0, 0, 1, 0, 1, 0]);
    let others = " 16/0/0/0000000000000000".repeat(15);
    assert_eq!(answers::answer(&body).line, format!("bags 0 0 0/2/3/3fe5555555555555{} 03ff00010203", others));
}

/// A row's jobs so far: those whose deadline has come, those that were done, and those that fell over by themselves.
#[derive(Clone, Copy, Default)]
struct Tally {
    all: u32,
    done: u32,
    fell: u32,
}

/// The tallies after each slot, from the records on the way: what a job is just before its window ends, and which
/// slots' primaries failed by report or overrun.
fn tallies(checked: &Checked, reports: &[u8]) -> Vec<[Tally; MOST_ROWS]> {
    let mut tallies = vec![[Tally::default(); MOST_ROWS]];
    let mut fell = [false; MOST_ROWS];
    let mut record = record::fresh(&checked.rows);
    for (clock, report) in (1..).zip(reports) {
        let mut tally = tallies[clock - 1];
        let work = run::what_runs(checked, &record);
        let before = record;
        run::settle(checked, &mut record, work, *report).expect("an accepted report");
        for (index, row) in checked.rows.iter().enumerate() {
            let ran = work == Work::Primary(index as u8 + 1);
            let entry = before.entries[index];
            let done = entry.state == State::Done || ran && *report == 1;
            fell[index] |= ran && *report != 1 && (*report == 2 || entry.u + 1 == row.p);
            if clock % usize::from(row.period) == 0 {
                tally[index].all += 1;
                tally[index].done += u32::from(done);
                tally[index].fell += u32::from(fell[index]);
                fell[index] = false;
            }
        }
        tallies.push(tally);
    }
    tallies
}

/// A bag's mark from the tallies at its start and at its end.
fn mark_between(start: Tally, end: Tally) -> u8 {
    match (end.done - start.done, end.all - start.all) {
        (_, 0) => NO_JOB,
        (done, all) if done == all => MODELLED,
        (0, _) => FIXED,
        _ => MIXED,
    }
}

/// Holds an accepted case to its tallies, and answers how many bags had which mark.
fn hold(body: &Body, met: &mut [usize; 4]) {
    let spans = body.spans();
    let (report, marks) = reported(&body.table(), body.bag_reports(), body.byte(DOSING_PLACE), &spans, spans.len() / 2);
    if report.refusal != refusal::NONE {
        return;
    }
    let checked = rule::check(&body.table()).unwrap_or_else(|refusal| panic!("refused: {:?}", refusal));
    let tallies = tallies(&checked, body.bag_reports());
    let row = usize::from(body.byte(DOSING_PLACE)) - 1;
    for (mark, span) in marks.iter().zip(spans.chunks_exact(2)) {
        assert_eq!(*mark, mark_between(tallies[span[0] as usize][row], tallies[span[1] as usize][row]));
        met[usize::from(*mark)] += 1;
    }
    let last = tallies[tallies.len() - 1];
    for (index, given) in report.shares.iter().enumerate() {
        let Tally { all, done, fell } = last[index];
        let expected = if all == fell { NO_SHARE } else { share(done, all - fell, done as f64 / (all - fell) as f64) };
        assert_eq!(*given, expected);
    }
}

#[test]
fn reports_are_those_tallied_slot_by_slot() {
    let mut cases = Vec::new();
    cases::write_all(5, 12_000, &mut cases).expect("a vector takes every byte");
    cases::write_fresh(6, 20_000, &mut cases).expect("a vector takes every byte");
    let mut input = Input::new(&cases);
    let mut met = [0; 4];
    while let Next::Body(bytes) = input.take() {
        let body = Body::new(bytes);
        if body.kind() == cases::draft::BAGS {
            hold(&body, &mut met);
        }
    }
    assert!(met.iter().all(|bags| *bags > 100), "bags by their marks: {:?}", met);
}
