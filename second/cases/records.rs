//! Random records of an accepted table: sound ones, ones that are a little off, and junk.

use super::reports;
use crate::numbers::Numbers;
use crate::record::{self, Entry, Record, State};
use crate::run;
use crate::table::{Checked, MOST_ROWS};

const STATES: [State; 3] = [State::Waiting, State::Failed, State::Done];

/// A record for any use: mostly a sound one.
pub fn mixed(numbers: &mut Numbers, checked: &Checked) -> Record {
    let mut record = sound(numbers, checked);
    match numbers.weighted(&[78, 8, 5, 6, 3]) {
        0 => {}
        1 => nudge(numbers, checked, &mut record),
        2 => misfit(numbers, checked, &mut record),
        3 => record = fitting(numbers, checked),
        _ => record = junk(numbers),
    }
    record
}

/// A sound record, often with something in the entries past the rows.
pub fn sound(numbers: &mut Numbers, checked: &Checked) -> Record {
    let mut record = match numbers.weighted(&[1, 6, 3]) {
        0 => record::fresh(&checked.rows),
        1 => reached(numbers, checked),
        _ => placed(numbers, checked),
    };
    if numbers.one_in(3) {
        litter(numbers, checked.rows.len(), &mut record);
    }
    record
}

/// The record that a fresh one becomes after some slots, of a cycle or two if it is short.
fn reached(numbers: &mut Numbers, checked: &Checked) -> Record {
    let slots = numbers.below((2 * checked.cycle).min(150) + 1);
    let mut record = record::fresh(&checked.rows);
    for _ in 0..slots {
        let report = reports::right(numbers, checked, &record);
        // A right report is never refused, so the record always moves on.
        if let Ok(slot) = run::step(checked, &record, report) {
            record = slot.next;
        }
    }
    record
}

/// A record at any clock, with any states, whose entries fit: it is sound where they leave no job short.
fn fitting(numbers: &mut Numbers, checked: &Checked) -> Record {
    let mut record = record::fresh(&[]);
    record.clock = numbers.below(checked.cycle) as u16;
    for (row, entry) in checked.rows.iter().zip(record.entries.iter_mut()) {
        let state = numbers.pick(&STATES);
        *entry = match state {
            State::Waiting => Entry { state, u: numbers.word_between(0, row.p - 1), left: row.a },
            State::Failed => Entry { state, u: numbers.word_between(0, row.p), left: numbers.word_between(0, row.a) },
            State::Done => Entry { state, u: numbers.word_between(1, row.p), left: 0 },
        };
    }
    record
}

/// A sound record at any clock, with any states: where the entries chosen leave a job short, rows from the last up
/// are made done, which claims nothing.
fn placed(numbers: &mut Numbers, checked: &Checked) -> Record {
    let mut record = fitting(numbers, checked);
    let mut place = checked.rows.len();
    while place > 0 && !record::is_sound(checked, &record) {
        place -= 1;
        record.entries[place] = Entry { state: State::Done, u: 1, left: 0 };
    }
    record
}

/// One of the figures that count, moved by one, or one of the states changed.
fn nudge(numbers: &mut Numbers, checked: &Checked, record: &mut Record) {
    let up = numbers.one_in(2);
    let by_one = |figure: u16| if up { figure.saturating_add(1) } else { figure.saturating_sub(1) };
    let entry = &mut record.entries[numbers.below(checked.rows.len())];
    match numbers.below(4) {
        0 => record.clock = by_one(record.clock),
        1 => entry.u = by_one(entry.u),
        2 => entry.left = by_one(entry.left),
        _ => entry.state = numbers.pick(&STATES),
    }
}

/// A clock or an entry that is unsound by itself.
fn misfit(numbers: &mut Numbers, checked: &Checked, record: &mut Record) {
    let place = numbers.below(checked.rows.len());
    let row = checked.rows[place];
    let entry = match numbers.below(10) {
        0 => return record.clock = checked.cycle as u16,
        1 => return record.clock = numbers.word_between(checked.cycle as u16, 65_535),
        2 => (State::Waiting, row.p, row.a),
        3 => (State::Waiting, 0, row.a + 1),
        4 => (State::Waiting, row.p - 1, row.a - 1),
        5 => (State::Failed, row.p + 1, 0),
        6 => (State::Failed, 0, row.a + 1),
        7 => (State::Done, 0, 0),
        8 => (State::Done, row.p + 1, 0),
        _ => (State::Done, row.p, 1),
    };
    record.entries[place] = Entry { state: entry.0, u: entry.1, left: entry.2 };
}

/// Any figures at all, small ones as often as large ones.
pub fn junk(numbers: &mut Numbers) -> Record {
    let mut record = record::fresh(&[]);
    record.clock = small_or_any(numbers);
    for entry in record.entries.iter_mut().take(numbers.between(1, MOST_ROWS)) {
        *entry = junk_entry(numbers);
    }
    record
}

/// Junk in the entries past the rows, which are "ignored and handed back as they came".
fn litter(numbers: &mut Numbers, rows: usize, record: &mut Record) {
    let last = if numbers.one_in(2) { MOST_ROWS } else { MOST_ROWS.min(rows + 2) };
    for entry in &mut record.entries[rows..last] {
        *entry = junk_entry(numbers);
    }
}

fn junk_entry(numbers: &mut Numbers) -> Entry {
    Entry { state: numbers.pick(&STATES), u: small_or_any(numbers), left: small_or_any(numbers) }
}

fn small_or_any(numbers: &mut Numbers) -> u16 {
    if numbers.one_in(4) {
        numbers.word()
    } else {
        numbers.word_between(0, 5)
    }
}

/// A record for reservations from a clock, where "state and u are not looked at": some of the units left are none,
/// more than the window, or the most there can be, and the clock may be at the cycle or past it.
pub fn arbitrary_left(numbers: &mut Numbers, checked: &Checked) -> Record {
    let mut record = sound(numbers, checked);
    for (row, entry) in checked.rows.iter().zip(record.entries.iter_mut()) {
        match numbers.below(8) {
            0 => entry.left = 0,
            1 => entry.left = 65_535,
            2 => entry.left = row.period.saturating_add(1),
            3 => entry.left = numbers.word_between(0, row.period),
            4 => entry.left = row.a.saturating_add(1),
            _ => {}
        }
    }
    record.clock = match numbers.weighted(&[3, 8, 1, 1]) {
        0 => record.clock,
        1 => numbers.below(checked.cycle) as u16,
        2 => checked.cycle as u16,
        _ => numbers.word(),
    };
    record
}
