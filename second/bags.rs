//! The bag report: how each bag of a dosing row was dosed, and each row's share of primaries done. Worked out job by
//! job, over the slots of its window, from what ran and what was reported.

use crate::record;
use crate::refusal::{self, Refusal};
use crate::rule;
use crate::run;
use crate::table::{Checked, Row, Table, MOST_ROWS};

/// "all by primary is 'modelled' (1), all by alternate 'fixed' (2), both kinds 'mixed' (3), no job 'none' (0)"
pub const NO_JOB: u8 = 0;
pub const MODELLED: u8 = 1;
pub const FIXED: u8 = 2;
pub const MIXED: u8 = 3;

/// A row's "primaries done over all less those reported failed or overrun", and the two counts themselves.
#[derive(Clone, Copy, Debug, PartialEq)]
pub struct Share {
    pub mark: u8,
    pub done: u32,
    pub of: u32,
    pub share: f64,
}

/// What stands at each place beside a refusal.
const REFUSED: Share = Share { mark: 0, done: 0, of: 0, share: 0.0 };

/// "A row with divisor 0, and each place past the last row, carries 16 beside a share of 0"
const NO_SHARE: Share = Share { mark: 16, done: 0, of: 0, share: 0.0 };

#[derive(Debug, PartialEq)]
pub struct BagReport {
    pub refusal: Refusal,
    pub shares: [Share; MOST_ROWS],
}

/// How the primary of a job whose deadline has come ended.
#[derive(Clone, Copy, PartialEq, Eq)]
enum Ending {
    Done,
    Failed,
    Overran,
    Aborted,
}

/// What ran in each slot from a fresh start, and what was reported there.
struct History<'a> {
    checked: Checked,
    log: Vec<u8>,
    reports: &'a [u8],
}

/// The report on any table, reports, dosing row and spans; the marks go to the lent bytes, "one lent byte for each
/// whole pair". "no refusal here writes anything".
pub fn report(table: &Table, reports: &[u8], row: u8, spans: &[u64], marks: &mut [u8]) -> BagReport {
    match admit(table, reports, row, spans, marks.len()) {
        Ok(history) => {
            for (mark, span) in marks.iter_mut().zip(spans.chunks_exact(2)) {
                *mark = dosing(&history, row, span[0] as usize, span[1] as usize);
            }
            BagReport { refusal: refusal::NONE, shares: shares(&history) }
        }
        Err(refusal) => BagReport { refusal, shares: [REFUSED; MOST_ROWS] },
    }
}

/// "after 01's for the run", 1 to 7, 8 and then 10 and 11 slot by slot, "14 for a dosing row outside the table", and 15
/// for the spans.
fn admit<'a>(table: &Table, reports: &'a [u8], row: u8, spans: &[u64], room: usize) -> Result<History<'a>, Refusal> {
    let checked = rule::check(table)?;
    if room < spans.len() / 2 {
        return Err(refusal::ROOM);
    }
    let course = run::course(&checked, &record::fresh(&checked.rows), reports);
    if course.refusal != refusal::NONE {
        return Err(course.refusal);
    }
    if row == 0 || usize::from(row) > checked.rows.len() {
        return Err(refusal::DOSING);
    }
    if !fit(spans, reports.len() as u64) {
        return Err(refusal::SPANS);
    }
    Ok(History { checked, log: course.log, reports })
}

/// Refusal 15 is given where this is not so: "when the list is odd, a span doesn't end after its start, ends past the
/// slots run or starts before the previous end, or when there are more than 4,294,967,295 reports".
pub fn fit(spans: &[u64], slots: u64) -> bool {
    let mut previous_end = 0;
    for span in spans.chunks_exact(2) {
        let (start, end) = (span[0], span[1]);
        if end <= start || end > slots || start < previous_end {
            return false;
        }
        previous_end = end;
    }
    spans.len() % 2 == 0 && slots <= 4_294_967_295
}

/// A bag's mark, by the dosing row's jobs "whose deadline is after its start and no later than its end".
fn dosing(history: &History, name: u8, start: usize, end: usize) -> u8 {
    let endings = endings(history, name, start, end);
    let by_primary = count(&endings, Ending::Done);
    if endings.is_empty() {
        NO_JOB
    } else if by_primary == endings.len() {
        MODELLED
    } else if by_primary == 0 {
        FIXED
    } else {
        MIXED
    }
}

/// The shares of the table's rows, and of the places past them.
fn shares(history: &History) -> [Share; MOST_ROWS] {
    let mut shares = [NO_SHARE; MOST_ROWS];
    for (share, name) in shares.iter_mut().take(history.checked.rows.len()).zip(1..) {
        *share = share_of(&endings(history, name, 0, history.log.len()));
    }
    shares
}

/// "two whole numbers below 2^32 carried over exactly and divided once". An aborted job is neither reported failed nor
/// overrun, so it stays in the divisor.
fn share_of(endings: &[Ending]) -> Share {
    let done = count(endings, Ending::Done) as u32;
    let of = (endings.len() - count(endings, Ending::Failed) - count(endings, Ending::Overran)) as u32;
    if of == 0 {
        return NO_SHARE;
    }
    Share { mark: 0, done, of, share: f64::from(done) / f64::from(of) }
}

fn count(endings: &[Ending], wanted: Ending) -> usize {
    endings.iter().filter(|ending| **ending == wanted).count()
}

/// How each of a row's jobs ended whose deadline is after `start` and no later than `end`. Job j has its deadline at j
/// times the period, past cycle ends too: the cycle is a multiple of the period.
fn endings(history: &History, name: u8, start: usize, end: usize) -> Vec<Ending> {
    let row = &history.checked.rows[usize::from(name) - 1];
    let period = usize::from(row.period);
    let jobs = (1..=end / period).filter(|job| job * period > start);
    jobs.map(|job| ending(history, name, row, job)).collect()
}

/// How a job's primary ended, from the slots of its window: "Reports 1 and 2 are only for a primary unit", and "Going
/// on at the p-th unit" is an overrun. A primary that had none of these was still waiting when its alternate began.
fn ending(history: &History, name: u8, row: &Row, job: usize) -> Ending {
    let deadline = job * usize::from(row.period);
    let mut units = 0;
    for slot in deadline - usize::from(row.period)..deadline {
        if history.log[slot] == name {
            units += 1;
            match history.reports[slot] {
                1 => return Ending::Done,
                2 => return Ending::Failed,
                _ if units == row.p => return Ending::Overran,
                _ => {}
            }
        }
    }
    Ending::Aborted
}
