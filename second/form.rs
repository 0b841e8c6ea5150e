//! The binary form of cases: the input's division into bodies, and what stands at which place of a body.

use crate::record::{Entry, Record, State};
use crate::table::{Row, Table, MOST_ROWS};

/// "The largest case has a body of 16,384 bytes."
pub const LARGEST_BODY: usize = 16_384;

/// "a room over 16,384 counts as 16,384"
pub const LARGEST_ROOM: usize = 16_384;

pub const TABLE_PLACE: usize = 4;
pub const RECORD_PLACE: usize = 101;
pub const REPORT_PLACE: usize = 183;

/// Where a run has its buffer's room, and its reports after that.
pub const BUFFER_PLACE: usize = 183;
pub const RUN_REPORT_PLACE: usize = 185;

/// Where a bag report has its dosing row, how many numbers its spans have, and those; its reports come after them.
pub const DOSING_PLACE: usize = 101;
pub const SPAN_COUNT_PLACE: usize = 102;
pub const SPANS_PLACE: usize = 103;

/// "where over 64 counts as 64"
pub const MOST_SPAN_NUMBERS: usize = 64;

/// What comes next in an input: a case's body, or a reason to stop.
#[derive(Debug, PartialEq, Eq)]
pub enum Next<'a> {
    Body(&'a [u8]),
    TooLong,
    CutOff,
    End,
}

/// The rest of an input of case after case.
pub struct Input<'a> {
    rest: &'a [u8],
}

impl<'a> Input<'a> {
    pub fn new(bytes: &'a [u8]) -> Input<'a> {
        Input { rest: bytes }
    }

    /// The next case: "two bytes, the length L of its body, and then the L bytes of the body". A length field that
    /// says too much is met before the end of the input that may follow it.
    pub fn take(&mut self) -> Next<'a> {
        let (length, rest) = match self.rest {
            [] => return Next::End,
            [_] => return Next::CutOff,
            [high, low, rest @ ..] => (usize::from(u16::from_be_bytes([*high, *low])), rest),
        };
        if length > LARGEST_BODY {
            return Next::TooLong;
        }
        if length > rest.len() {
            return Next::CutOff;
        }
        let (body, rest) = rest.split_at(length);
        self.rest = rest;
        Next::Body(body)
    }
}

/// A case's body. "Bytes that a body doesn't have count as 0."
pub struct Body<'a> {
    bytes: &'a [u8],
}

impl<'a> Body<'a> {
    pub fn new(bytes: &'a [u8]) -> Body<'a> {
        Body { bytes }
    }

    pub fn byte(&self, place: usize) -> u8 {
        self.bytes.get(place).copied().unwrap_or(0)
    }

    pub fn word(&self, place: usize) -> u16 {
        u16::from_be_bytes([self.byte(place), self.byte(place + 1)])
    }

    /// A number of eight bytes.
    fn long(&self, place: usize) -> u64 {
        (place..place + 8).fold(0, |number, place| 256 * number + u64::from(self.byte(place)))
    }

    /// "the body's bytes from place ... on"; none "where the body ends before its first place".
    pub fn list_at(&self, place: usize) -> &'a [u8] {
        self.bytes.get(place..).unwrap_or(&[])
    }

    pub fn kind(&self) -> u8 {
        self.byte(0)
    }

    pub fn fill(&self) -> u8 {
        self.byte(1)
    }

    pub fn room(&self) -> usize {
        self.room_at(2)
    }

    pub fn buffer_room(&self) -> usize {
        self.room_at(BUFFER_PLACE)
    }

    /// The numbers of a bag report's list of spans.
    pub fn spans(&self) -> Vec<u64> {
        (0..self.span_count()).map(|index| self.long(SPANS_PLACE + 8 * index)).collect()
    }

    /// A bag report's reports, which stand after its spans.
    pub fn bag_reports(&self) -> &'a [u8] {
        self.list_at(SPANS_PLACE + 8 * self.span_count())
    }

    fn span_count(&self) -> usize {
        usize::from(self.byte(SPAN_COUNT_PLACE)).min(MOST_SPAN_NUMBERS)
    }

    fn room_at(&self, place: usize) -> usize {
        usize::from(self.word(place)).min(LARGEST_ROOM)
    }

    /// "n, one byte, and then sixteen rows, whatever n is, of period, p and a, two bytes each"
    pub fn table(&self) -> Table {
        let mut table = Table::zeros();
        table.n = self.byte(TABLE_PLACE);
        for (index, row) in table.rows.iter_mut().enumerate() {
            let place = TABLE_PLACE + 1 + 6 * index;
            *row = Row { period: self.word(place), p: self.word(place + 2), a: self.word(place + 4) };
        }
        table
    }

    /// "the clock, two bytes, and then sixteen entries, whatever the table's n is, of a state, one byte [...], u, two
    /// bytes, and the units left, two bytes"
    pub fn record(&self) -> Record {
        let nothing = Entry { state: State::Waiting, u: 0, left: 0 };
        let mut record = Record { clock: self.word(RECORD_PLACE), entries: [nothing; MOST_ROWS] };
        for (index, entry) in record.entries.iter_mut().enumerate() {
            let place = RECORD_PLACE + 2 + 5 * index;
            let state = state(self.byte(place));
            *entry = Entry { state, u: self.word(place + 1), left: self.word(place + 3) };
        }
        record
    }
}

/// "0 waiting, 1 failed, anything else done"
fn state(byte: u8) -> State {
    match byte {
        0 => State::Waiting,
        1 => State::Failed,
        _ => State::Done,
    }
}
