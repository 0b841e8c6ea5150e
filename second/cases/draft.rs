//! A case before it has become bytes.

use crate::form::{RECORD_PLACE, REPORT_PLACE, TABLE_PLACE};
use crate::record::{self, Record, State};
use crate::table::{self, Row, Table};

pub const GCD: u8 = 1;
pub const ROWS: u8 = 2;
pub const CHECK: u8 = 3;
pub const LIST: u8 = 4;
pub const FIRSTS: u8 = 5;
pub const CLOCK: u8 = 6;
pub const READ: u8 = 7;
pub const WRITE: u8 = 8;
pub const FRESH: u8 = 9;
pub const ASKED: u8 = 10;
pub const WAITING: u8 = 11;
pub const STEP: u8 = 12;
pub const RUN: u8 = 13;
pub const LOST: u8 = 14;
pub const LOST_FRESH: u8 = 15;
pub const BAGS: u8 = 16;

/// The arguments of a case of any kind; those that its kind doesn't have are left out of its body.
#[derive(Clone)]
pub struct Draft {
    pub kind: u8,
    pub fill: u8,
    pub room: u16,
    /// The room of a run's buffer.
    pub buffer: u16,
    pub table: Table,
    pub record: Record,
    /// The byte that stands for done, "anything else" than 0 and 1.
    pub done: u8,
    /// The dosing row of a bag report, and its list of spans.
    pub row: u8,
    pub spans: Vec<u64>,
    /// What stands after the other arguments: x and y, a file, a report or the reports.
    pub list: Vec<u8>,
    /// Whether zeros at the body's end stay although they may be left out.
    pub whole: bool,
}

impl Draft {
    pub fn new(kind: u8) -> Draft {
        Draft {
            kind,
            fill: 0,
            room: 0,
            buffer: 0,
            table: Table::zeros(),
            record: record::fresh(&[]),
            done: 2,
            row: 0,
            spans: Vec::new(),
            list: Vec::new(),
            whole: false,
        }
    }

    /// The table, and with it a buffer of its cycle's length, which only a run has.
    pub fn table(mut self, table: &Table) -> Draft {
        self.table = table.clone();
        let cycle = table::check_rows(table).map_or(0, |checked| checked.cycle);
        self.buffer(cycle)
    }

    pub fn record(mut self, record: &Record) -> Draft {
        self.record = *record;
        self
    }

    pub fn list(mut self, list: &[u8]) -> Draft {
        self.list = list.to_vec();
        self
    }

    pub fn room(mut self, room: usize) -> Draft {
        self.room = room.min(65_535) as u16;
        self
    }

    pub fn buffer(mut self, room: usize) -> Draft {
        self.buffer = room.min(65_535) as u16;
        self
    }

    /// The dosing row and the spans, of which a body can have 64 numbers, and room for the mark of each whole pair.
    pub fn bags(mut self, row: u8, spans: &[u64]) -> Draft {
        self.row = row;
        self.spans = spans.to_vec();
        self.room(spans.len() / 2)
    }

    /// The body: each argument at its place; "zeros at a body's end may be left out, but for those of a file or of a
    /// list of reports".
    pub fn body(&self) -> Vec<u8> {
        let mut body = vec![self.kind, self.fill];
        body.extend_from_slice(&self.room.to_be_bytes());
        if self.list_place() >= RECORD_PLACE {
            self.put_table(&mut body);
        }
        if self.list_place() >= REPORT_PLACE {
            self.put_record(&mut body);
        }
        if self.kind == RUN {
            body.extend_from_slice(&self.buffer.to_be_bytes());
        }
        if self.kind == BAGS {
            self.put_spans(&mut body);
        }
        body.extend_from_slice(self.listed());
        let ends_with_list = matches!(self.kind, READ | RUN | LOST | LOST_FRESH | BAGS) && !self.list.is_empty();
        if !ends_with_list && !self.whole {
            while body.last() == Some(&0) {
                body.pop();
            }
        }
        body
    }

    /// The place after the table and the record, where the kind has them. Between it and a run's list stands the room
    /// of its buffer, and between it and a bag report's list stand its row and spans.
    fn list_place(&self) -> usize {
        match self.kind {
            GCD | READ => TABLE_PLACE,
            ROWS | CHECK | LIST | FIRSTS | WRITE | FRESH | LOST_FRESH | BAGS => RECORD_PLACE,
            _ => REPORT_PLACE,
        }
    }

    /// What of the list the kind has: `step` has one report.
    fn listed(&self) -> &[u8] {
        match self.kind {
            GCD | READ | RUN | LOST | LOST_FRESH | BAGS => &self.list,
            STEP => &self.list[..self.list.len().min(1)],
            _ => &[],
        }
    }

    fn put_table(&self, body: &mut Vec<u8>) {
        body.push(self.table.n);
        for row in self.table.rows {
            for number in [row.period, row.p, row.a] {
                body.extend_from_slice(&number.to_be_bytes());
            }
        }
    }

    fn put_spans(&self, body: &mut Vec<u8>) {
        body.extend_from_slice(&[self.row, self.spans.len() as u8]);
        for number in &self.spans {
            body.extend_from_slice(&number.to_be_bytes());
        }
    }

    fn put_record(&self, body: &mut Vec<u8>) {
        body.extend_from_slice(&self.record.clock.to_be_bytes());
        for entry in self.record.entries {
            body.push(match entry.state {
                State::Waiting => 0,
                State::Failed => 1,
                State::Done => self.done,
            });
            body.extend_from_slice(&entry.u.to_be_bytes());
            body.extend_from_slice(&entry.left.to_be_bytes());
        }
    }
}

/// A table of rows written as (period, p, a).
pub fn table_of(rows: &[(u16, u16, u16)]) -> Table {
    let rows: Vec<Row> = rows.iter().map(|&(period, p, a)| Row { period, p, a }).collect();
    Table::of(&rows)
}

/// A record with this clock and these first entries, written as (state, u, left).
pub fn record_of(clock: u16, entries: &[(State, u16, u16)]) -> Record {
    let mut record = record::fresh(&[]);
    record.clock = clock;
    for (entry, &(state, u, left)) in record.entries.iter_mut().zip(entries) {
        *entry = record::Entry { state, u, left };
    }
    record
}
