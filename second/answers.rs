//! The answer line of a case.

use crate::bags;
use crate::file;
use crate::form::{Body, Input, Next, DOSING_PLACE, RECORD_PLACE, REPORT_PLACE, RUN_REPORT_PLACE, TABLE_PLACE};
use crate::kept;
use crate::record::{self, Record, State};
use crate::refusal::{self, Refusal};
use crate::rule;
use crate::run;
use crate::table::{self, Table};
use std::io::{self, Write};

/// The names of kinds 1 to 16, with which their lines begin.
pub const NAMES: [&str; 16] = [
    "gcd",
    "rows",
    "check",
    "list",
    "firsts",
    "clock",
    "read",
    "write",
    "fresh",
    "asked",
    "waiting",
    "step",
    "run",
    "lost",
    "lostfresh",
    "bags",
];

/// How many places past the lent ones are printed.
const NOT_LENT: usize = 4;

/// An answered case: its kind, its number of refusal (0 where the kind has none) and its line.
pub struct Answer {
    pub kind: u8,
    pub number: u8,
    pub line: String,
}

/// What follows the name of the kind in a line: a refusal and the fields after it.
type Fields = (Refusal, String);

/// Answers an input of cases, line by line.
pub fn answer_all(input: &[u8], out: &mut dyn Write) -> io::Result<()> {
    let mut input = Input::new(input);
    loop {
        match input.take() {
            Next::Body(body) => writeln!(out, "{}", answer(body).line)?,
            Next::TooLong => return writeln!(out, "too long"),
            Next::CutOff => return writeln!(out, "cut off"),
            Next::End => return Ok(()),
        }
    }
}

/// Answers one case.
pub fn answer(bytes: &[u8]) -> Answer {
    let body = Body::new(bytes);
    let kind = body.kind();
    let fields = match kind {
        1 => return gcd(&body),
        2 => cycle(table::check_rows(&body.table())),
        3 => cycle(rule::check(&body.table())),
        4 => list(&body),
        5 => firsts(&body),
        6 => clock(&body),
        7 => read(&body),
        8 => write(&body),
        9 => fresh(&body.table()),
        10 => asked(&body),
        11 => waiting(&body),
        12 => step(&body),
        13 => run(&body),
        14 => lost(&body),
        15 => lost_fresh(&body),
        16 => bags(&body),
        _ => return Answer { kind, number: 0, line: format!("unknown {}", kind) },
    };
    let (refusal, rest) = fields;
    let name = NAMES[usize::from(kind) - 1];
    let line = format!("{} {} {} {}", name, refusal.number, refusal.row, rest);
    Answer { kind, number: refusal.number, line }
}

/// `gcd G`: the one line with no number of refusal.
fn gcd(body: &Body) -> Answer {
    let greatest = table::gcd(u64::from(body.word(4)), u64::from(body.word(6)));
    Answer { kind: 1, number: 0, line: format!("gcd {}", greatest) }
}

/// `rows N R C` and `check N R C`
fn cycle(result: Result<table::Checked, Refusal>) -> Fields {
    match result {
        Ok(checked) => (refusal::NONE, checked.cycle.to_string()),
        Err(refusal) => (refusal, "0".to_string()),
    }
}

/// `list N R U BYTES`: "The reservation list, which is that of the table's fresh record, needs as many bytes as the
/// cycle has slots".
fn list(body: &Body) -> Fields {
    let holders = rule::check(&body.table()).map(|checked| rule::reserve_fresh(&checked).holders);
    lent_bytes(body, holders)
}

/// `firsts N R U PLACES`: one place of two bytes for each job.
fn firsts(body: &Body) -> Fields {
    let room = body.room();
    let firsts = rule::check(&body.table()).map(|checked| rule::first_slots(&checked));
    let (refusal, used) = within(room, firsts);
    let mut line = format!("{} ", used.len());
    for place in 0..room + NOT_LENT {
        let before = (257 * usize::from(body.fill()) + place) % 65_536;
        let after = used.get(place).copied().unwrap_or(before);
        line.push_str(&format!("{:04x}", after));
    }
    (refusal, line)
}

/// `clock N R C S H`: refusals 1 to 6 only. "With the clock at the cycle or past it S and H are 0."
fn clock(body: &Body) -> Fields {
    match table::check_rows(&body.table()) {
        Ok(checked) => {
            let record = body.record();
            let reserved = record::reserve(&checked, &record);
            let holder = reserved.holders.get(usize::from(record.clock)).copied().unwrap_or(0);
            (refusal::NONE, format!("{} {} {}", checked.cycle, reserved.short, holder))
        }
        Err(refusal) => (refusal, "0 0 0".to_string()),
    }
}

/// `read N R n ROWS`: "A refused reading hands back a table of zeros with n 0."
fn read(body: &Body) -> Fields {
    let (refusal, table) = match file::read(body.list_at(TABLE_PLACE)) {
        Ok(table) => (refusal::NONE, table),
        Err(refusal) => (refusal, Table::zeros()),
    };
    let mut line = table.n.to_string();
    for row in table.rows {
        line.push_str(&format!(" {}/{}/{}", row.period, row.p, row.a));
    }
    (refusal, line)
}

/// `write N R U BYTES`
fn write(body: &Body) -> Fields {
    let table = body.table();
    lent_bytes(body, rule::check(&table).map(|_| file::bytes_of(&table)))
}

/// `fresh N R RECORD`: "Where the table is refused, the fresh record has every entry so", waiting with u 0 and left 0.
fn fresh(table: &Table) -> Fields {
    match rule::check(table) {
        Ok(checked) => (refusal::NONE, record_text(&record::fresh(&checked.rows))),
        Err(refusal) => (refusal, record_text(&record::fresh(&[]))),
    }
}

/// `asked N R B`: "Beside a refusal, every figure not named here is 0, the log's byte for the clock among them."
fn asked(body: &Body) -> Fields {
    let record = body.record();
    match record::check(&body.table(), &record) {
        Ok(checked) => (refusal::NONE, run::log_byte(run::what_runs(&checked, &record)).to_string()),
        Err(refusal) => (refusal, "0".to_string()),
    }
}

/// `waiting N R SET ROW COUNT`: "one 16-bit set, row 1 in the lowest place. The row taken is the set's lowest member,
/// and the number waiting is the count of its members. An empty set takes no row, answered as 0."
fn waiting(body: &Body) -> Fields {
    let record = body.record();
    match record::check(&body.table(), &record) {
        Ok(checked) => {
            let rows: Vec<u8> = record::waiting(&checked, &record).collect();
            let set: u32 = rows.iter().map(|row| 1 << (row - 1)).sum();
            let taken = rows.first().copied().unwrap_or(0);
            (refusal::NONE, format!("{} {} {}", set, taken, rows.len()))
        }
        Err(refusal) => (refusal, "0 0 0".to_string()),
    }
}

/// `step N R B RECORD`: beside a refusal the record is the one given.
fn step(body: &Body) -> Fields {
    let given = body.record();
    let report = body.byte(REPORT_PLACE);
    let slot = record::check(&body.table(), &given).and_then(|checked| run::step(&checked, &given, report));
    match slot {
        Ok(slot) => (refusal::NONE, format!("{} {}", run::log_byte(slot.work), record_text(&slot.next))),
        Err(refusal) => (refusal, format!("0 {}", record_text(&given))),
    }
}

/// `run N R S RECORD BYTES BYTES`
fn run(body: &Body) -> Fields {
    let (room, buffer_room) = (body.room(), body.buffer_room());
    let mut log = lent(body, room);
    let mut buffer = lent(body, buffer_room);
    let reports = body.list_at(RUN_REPORT_PLACE);
    let ran = kept::run(&body.table(), &body.record(), reports, &mut log[..room], &mut buffer[..buffer_room]);
    let record = record_text(&ran.record);
    (ran.refusal, format!("{} {} {} {}", ran.slots, record, hexadecimal(&log), hexadecimal(&buffer)))
}

/// `lost N R U`, from a record
fn lost(body: &Body) -> Fields {
    let record = body.record();
    let reports = body.list_at(REPORT_PLACE);
    let course = record::check(&body.table(), &record).map(|checked| run::course(&checked, &record, reports));
    lost_units(course)
}

/// `lostfresh N R U`: lost units "over a fresh start and a list of reports".
fn lost_fresh(body: &Body) -> Fields {
    let course = rule::check(&body.table())
        .map(|checked| run::course(&checked, &record::fresh(&checked.rows), body.list_at(RECORD_PLACE)));
    lost_units(course)
}

/// "beside a refusal the sum is 0", 10 and 11 included.
fn lost_units(course: Result<run::Course, Refusal>) -> Fields {
    match course {
        Ok(course) if course.refusal == refusal::NONE => (refusal::NONE, course.lost.to_string()),
        Ok(course) => (course.refusal, "0".to_string()),
        Err(refusal) => (refusal, "0".to_string()),
    }
}

/// `bags N R SHARES BYTES`: "sixteen fields `mark/done/of/BITS`".
fn bags(body: &Body) -> Fields {
    let room = body.room();
    let mut marks = lent(body, room);
    let row = body.byte(DOSING_PLACE);
    let report = bags::report(&body.table(), body.bag_reports(), row, &body.spans(), &mut marks[..room]);
    let mut line = String::new();
    for share in report.shares {
        line.push_str(&format!("{}/{}/{}/{:016x} ", share.mark, share.done, share.of, share.share.to_bits()));
    }
    line.push_str(&hexadecimal(&marks));
    (report.refusal, line)
}

/// Refusal 8 comes after those of the table; beside a refusal nothing is used.
fn within<T>(room: usize, wanted: Result<Vec<T>, Refusal>) -> (Refusal, Vec<T>) {
    match wanted {
        Ok(wanted) if wanted.len() <= room => (refusal::NONE, wanted),
        Ok(_) => (refusal::ROOM, Vec::new()),
        Err(refusal) => (refusal, Vec::new()),
    }
}

/// The fields `U BYTES` of the kinds that write a list of bytes to the lent ones.
fn lent_bytes(body: &Body, wanted: Result<Vec<u8>, Refusal>) -> Fields {
    let (refusal, used) = within(body.room(), wanted);
    let mut bytes = lent(body, body.room());
    bytes[..used.len()].copy_from_slice(&used);
    (refusal, format!("{} {}", used.len(), hexadecimal(&bytes)))
}

/// So many lent bytes before the call, and the next four: "place i, from 0, holds (fill + i) mod 256".
fn lent(body: &Body, room: usize) -> Vec<u8> {
    (0..room + NOT_LENT).map(|place| ((usize::from(body.fill()) + place) % 256) as u8).collect()
}

/// Each byte as "two [...] hexadecimal digits in lower case, with nothing between places".
fn hexadecimal(bytes: &[u8]) -> String {
    bytes.iter().map(|byte| format!("{:02x}", byte)).collect()
}

/// "`RECORD` is the clock and then sixteen fields of a state's letter, w waiting, f failed, d done, u, `/` and the
/// units left"
fn record_text(record: &Record) -> String {
    let mut text = record.clock.to_string();
    for entry in record.entries.iter() {
        let letter = match entry.state {
            State::Waiting => 'w',
            State::Failed => 'f',
            State::Done => 'd',
        };
        text.push_str(&format!(" {}{}/{}", letter, entry.u, entry.left));
    }
    text
}
