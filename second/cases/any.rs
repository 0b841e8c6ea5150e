//! A random case of a random kind.

use super::draft::*;
use super::{files, records, reports, spans, tables};
use crate::form::BUFFER_PLACE;
use crate::numbers::Numbers;
use crate::record;
use crate::rule;
use crate::table::{self, Checked};

/// How often each kind is made, kind 1 first.
const WEIGHTS: [usize; 16] = [2, 3, 8, 8, 8, 7, 10, 5, 4, 8, 6, 12, 14, 10, 7, 5];

pub fn body(numbers: &mut Numbers) -> Vec<u8> {
    let mut draft = Draft::new(numbers.weighted(&WEIGHTS) as u8 + 1);
    draft.fill = numbers.byte();
    match draft.kind {
        GCD => draft.list = divisor_pair(numbers),
        READ => draft.list = files::mixed(numbers),
        ROWS | CHECK | FRESH => draft.table = tables::mostly_accepted(numbers, 2),
        LIST | FIRSTS | WRITE => table_and_room(numbers, &mut draft),
        LOST_FRESH => table_and_reports(numbers, &mut draft),
        BAGS => table_and_bags(numbers, &mut draft),
        _ => table_and_record(numbers, &mut draft),
    }
    draft.done = if numbers.one_in(8) { numbers.between(2, 255) as u8 } else { 2 };
    draft.whole = numbers.one_in(40);
    let mut body = draft.body();
    if numbers.one_in(60) {
        damage(numbers, &mut body);
    }
    body
}

fn divisor_pair(numbers: &mut Numbers) -> Vec<u8> {
    let factor = numbers.between(1, 255) as u16;
    let (x, y) = match numbers.below(5) {
        0 => (numbers.pick(&[0, 1, 65_535]), numbers.word()),
        1 => (numbers.word(), numbers.pick(&[0, 1, 65_535])),
        2 => (factor * numbers.word_between(0, 257), factor * numbers.word_between(0, 257)),
        3 => (factor, factor),
        _ => (numbers.word(), numbers.word()),
    };
    [x.to_be_bytes(), y.to_be_bytes()].concat()
}

/// A room for something that needs so many places.
fn room(numbers: &mut Numbers, need: usize) -> usize {
    match numbers.weighted(&[45, 25, 12, 10, 8]) {
        0 => need,
        1 => need + numbers.between(1, 8),
        2 => need.saturating_sub(1),
        3 => numbers.below(need + 1),
        _ => 0,
    }
}

fn table_and_room(numbers: &mut Numbers, draft: &mut Draft) {
    draft.table = tables::mostly_accepted(numbers, 5);
    let need = match rule::check(&draft.table) {
        Ok(checked) if draft.kind == LIST => checked.cycle,
        Ok(checked) if draft.kind == FIRSTS => rule::first_slots(&checked).len(),
        Ok(checked) => 4 + 6 * checked.rows.len(),
        Err(_) => numbers.below(12),
    };
    draft.room = room(numbers, need) as u16;
}

fn table_and_reports(numbers: &mut Numbers, draft: &mut Draft) {
    draft.table = tables::mostly_accepted(numbers, 6);
    draft.list = match rule::check(&draft.table) {
        Ok(checked) => reports::list(numbers, &checked, &record::fresh(&checked.rows)),
        Err(_) => blind(numbers),
    };
}

fn table_and_bags(numbers: &mut Numbers, draft: &mut Draft) {
    table_and_reports(numbers, draft);
    let n = draft.table.used().len().max(1) as u8;
    draft.row = spans::dosing_row(numbers, n);
    // Where the dosing row isn't there, or the table is refused, another period will do.
    let place = usize::from(draft.row.clamp(1, n)) - 1;
    let period = usize::from(draft.table.rows[place].period).max(1);
    if let (Ok(checked), true) = (rule::check(&draft.table), numbers.one_in(2)) {
        // Several jobs' deadlines come, and the last one just so or not quite.
        let slots = (numbers.between(1, 12) * period).min(200) - numbers.below(2);
        draft.list = reports::right_list(numbers, &checked, &record::fresh(&checked.rows), slots);
    }
    draft.spans = spans::mixed(numbers, draft.list.len(), period);
    draft.room = room_of_run(numbers, draft.spans.len() / 2) as u16;
}

/// The kinds with a table and a record.
fn table_and_record(numbers: &mut Numbers, draft: &mut Draft) {
    draft.table = tables::mostly_accepted(numbers, 8);
    if draft.kind == CLOCK {
        return clock(numbers, draft);
    }
    match rule::check(&draft.table) {
        Ok(checked) => record_and_reports(numbers, draft, &checked),
        Err(_) => {
            draft.record = records::junk(numbers);
            draft.list = blind(numbers);
        }
    }
    if draft.kind == RUN {
        let cycle = table::check_rows(&draft.table).map_or(0, |checked| checked.cycle);
        draft.room = room_of_run(numbers, draft.list.len()) as u16;
        draft.buffer = room_of_run(numbers, cycle) as u16;
    }
}

fn record_and_reports(numbers: &mut Numbers, draft: &mut Draft, checked: &Checked) {
    draft.record = records::mixed(numbers, checked);
    draft.list = match draft.kind {
        STEP if numbers.one_in(3) => vec![reports::any(numbers)],
        _ if !record::is_sound(checked, &draft.record) => blind(numbers),
        STEP => vec![reports::right(numbers, checked, &draft.record)],
        _ => reports::list(numbers, checked, &draft.record),
    };
}

/// A log, a buffer and the bytes for bags are mostly long enough, so that most runs run.
fn room_of_run(numbers: &mut Numbers, need: usize) -> usize {
    match numbers.weighted(&[70, 18, 12]) {
        0 => need,
        1 => need + numbers.between(1, 8),
        _ => room(numbers, need),
    }
}

/// Reservations from a clock: with an honest record or with arbitrary units left, of a tight table too.
fn clock(numbers: &mut Numbers, draft: &mut Draft) {
    draft.record = match table::check_rows(&draft.table) {
        Ok(checked) if numbers.one_in(3) => records::mixed(numbers, &checked),
        Ok(checked) => records::arbitrary_left(numbers, &checked),
        Err(_) => records::junk(numbers),
    };
}

fn blind(numbers: &mut Numbers) -> Vec<u8> {
    let slots = numbers.below(8);
    reports::blind(numbers, slots)
}

/// A body that is cut, longer, or has a byte changed.
fn damage(numbers: &mut Numbers, body: &mut Vec<u8>) {
    match numbers.below(3) {
        0 => body.truncate(numbers.below(body.len() + 1)),
        1 => (0..numbers.between(1, 6)).for_each(|_| body.push(numbers.byte())),
        _ => {
            // A room's high byte stays as it is: a change in it could ask for many thousands of places.
            let place = numbers.below(body.len().max(1));
            if let Some(byte) = body.get_mut(place).filter(|_| place != 2 && place != BUFFER_PLACE) {
                *byte = numbers.byte();
            }
        }
    }
}
