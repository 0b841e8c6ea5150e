//! The tables, and lists of reports for them of which none is refused.

use crate::kept;
use crate::numbers::Numbers;
use crate::record::{self, Record};
use crate::run::{self, Work};
use crate::table::{Checked, Row, Table};

/// For the reports: they are the same in every run of the program.
const SEED: u64 = 1;

/// A table, with how many slots are run and what is asked of the figures.
pub struct Task {
    pub name: &'static str,
    pub table: Table,
    /// Slots of each of the lists below, so many that what a run does once, before its first slot, hardly counts.
    pub slots: [usize; 3],
    /// How many of them single slots are timed on.
    pub single_slots: usize,
    /// The library's time over that of plain Rust is less than this.
    pub under: f64,
    /// And single slots take at least so many times as long, where it is asked.
    pub least: Option<f64>,
}

#[derive(Clone, Copy)]
pub enum Reports {
    GoingOn,
    Mixed,
    MostlyDone,
}

pub const LISTS: [Reports; 3] = [Reports::GoingOn, Reports::Mixed, Reports::MostlyDone];

impl Reports {
    pub fn name(self) -> &'static str {
        match self {
            Reports::GoingOn => "going on",
            Reports::Mixed => "mixed",
            Reports::MostlyDone => "mostly done",
        }
    }
}

pub fn tasks() -> [Task; 3] {
    [
        Task {
            name: "P1",
            table: table_of(&[(5, 2, 1), (6, 2, 2)]),
            slots: [1_000_000; 3],
            single_slots: 100_000,
            under: 1.5,
            least: None,
        },
        Task {
            name: "simulation I",
            table: table_of(&[(13, 3, 2), (24, 7, 3), (39, 9, 7), (144, 23, 17)]),
            slots: [2_000_000, 1_000_000, 1_000_000],
            single_slots: 4_000,
            under: 1.0,
            least: None,
        },
        Task {
            name: "16 rows, 4,096",
            table: sixteen_rows(),
            slots: [8_000_000, 2_000_000, 2_000_000],
            single_slots: 2_000,
            under: 1.0,
            least: Some(50.0),
        },
    ]
}

fn table_of(rows: &[(u16, u16, u16)]) -> Table {
    let rows: Vec<Row> = rows.iter().map(|&(period, p, a)| Row { period, p, a }).collect();
    Table::of(&rows)
}

/// Periods from 32 to 4,096, each twice as long as the one before and in two rows, with primaries of about a twentieth
/// of the period and alternates of about a sixty-fourth.
fn sixteen_rows() -> Table {
    let periods = (5..=12).map(|power| 1 << power);
    let rows: Vec<(u16, u16, u16)> =
        periods.flat_map(|period: u16| [(period, (period / 20).max(1), (period / 64).max(1)); 2]).collect();
    table_of(&rows)
}

/// A list of reports from the fresh record, each of which knows what runs in its slot.
pub fn list(checked: &Checked, reports: Reports, slots: usize) -> Vec<u8> {
    let mut numbers = Numbers::new(SEED);
    let mut record = record::fresh(&checked.rows);
    let mut buffer = vec![0; checked.cycle];
    kept::build(checked, &record, &mut buffer);
    let mut list = Vec::with_capacity(slots);
    for _ in 0..slots {
        let work = run::work_under(buffer[usize::from(record.clock)], checked, &record);
        let report = report(&mut numbers, checked, &record, work, reports);
        list.push(report);
        kept::run_slot(checked, &mut record, report, &mut buffer).expect("a report that knows what runs is accepted");
    }
    list
}

/// In mixed lists half of the primaries that reach their last unit are done at it and a fifth of them fails, and at each
/// earlier unit one in twenty is done and one in twenty fails. In mostly done ones each is done that reaches its last
/// unit, and half of them at each earlier unit.
fn report(numbers: &mut Numbers, checked: &Checked, record: &Record, work: Work, reports: Reports) -> u8 {
    let index = match work {
        Work::Primary(name) => usize::from(name) - 1,
        _ => return 0,
    };
    let last_unit = record.entries[index].u + 1 == checked.rows[index].p;
    let weights = match (reports, last_unit) {
        (Reports::GoingOn, _) => [1, 0, 0],
        (Reports::Mixed, true) => [6, 10, 4],
        (Reports::Mixed, false) => [18, 1, 1],
        (Reports::MostlyDone, true) => [0, 1, 0],
        (Reports::MostlyDone, false) => [1, 1, 0],
    };
    numbers.weighted(&weights) as u8
}
