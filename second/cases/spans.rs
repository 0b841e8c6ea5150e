//! Random dosing rows and lists of bag spans.

use crate::numbers::Numbers;

/// A dosing row of a table with so many rows, mostly one that is there.
pub fn dosing_row(numbers: &mut Numbers, n: u8) -> u8 {
    if numbers.one_in(12) {
        let outside = numbers.between(usize::from(n) + 1, 255) as u8;
        numbers.pick(&[0, n + 1, 17, 255, outside])
    } else {
        numbers.between(1, usize::from(n)) as u8
    }
}

/// Spans for a run of so many slots and a dosing row of this period: mostly ones that are accepted.
pub fn mixed(numbers: &mut Numbers, slots: usize, period: usize) -> Vec<u64> {
    let mut spans = right(numbers, slots, period);
    if numbers.one_in(6) {
        spoil(numbers, slots as u64, &mut spans);
    }
    spans
}

/// Spans in order and within the slots, with gaps or without, and often up to a deadline or one slot off it.
fn right(numbers: &mut Numbers, slots: usize, period: usize) -> Vec<u64> {
    // With one more below there are at most 32, as many as a body can have.
    let most = match numbers.weighted(&[1, 8, 2]) {
        0 => 0,
        1 => numbers.between(1, 6),
        _ => numbers.between(1, 31),
    };
    let mut spans = Vec::new();
    let mut previous_end = 0;
    for _ in 0..most {
        let start = previous_end + gap(numbers, period);
        let end = start + length(numbers, start, period);
        if end > slots {
            break;
        }
        spans.extend([start as u64, end as u64]);
        previous_end = end;
    }
    // Now and then the last slot run is the last one of the last bag.
    if previous_end < slots && numbers.one_in(3) {
        spans.extend([numbers.between(previous_end, slots - 1) as u64, slots as u64]);
    }
    spans
}

fn gap(numbers: &mut Numbers, period: usize) -> usize {
    if numbers.one_in(3) {
        numbers.between(0, period)
    } else {
        0
    }
}

/// A bag's slots, at least one: up to the next deadline, to one slot before it or after it, a slot, or any number.
fn length(numbers: &mut Numbers, start: usize, period: usize) -> usize {
    let to_deadline = period - start % period;
    match numbers.weighted(&[4, 2, 2, 1, 6]) {
        0 => to_deadline,
        1 => (to_deadline - 1).max(1),
        2 => to_deadline + 1,
        3 => 1,
        _ => numbers.between(1, 4 * period),
    }
}

/// Makes the list one that is refused, for one of the causes.
fn spoil(numbers: &mut Numbers, slots: u64, spans: &mut Vec<u64>) {
    if spans.is_empty() || numbers.one_in(5) {
        return spans.push(numbers.pick(&[0, slots, slots + 1, u64::MAX]));
    }
    let start = 2 * numbers.below(spans.len() / 2);
    let end = start + 1;
    match numbers.below(6) {
        0 => spans[end] = spans[start],
        1 => spans.swap(start, end),
        2 => spans[end] = numbers.pick(&[slots + 1, slots + 256, (1 << 32) + spans[end], u64::MAX]),
        3 => spans[start] = numbers.pick(&[slots, (1 << 32) + spans[start], u64::MAX - 1, u64::MAX]),
        4 => overlap(spans, start),
        _ => {
            spans.remove(start);
        }
    }
}

/// The span at this place starts a slot before the end of the one before it; of the first one, a copy follows it.
fn overlap(spans: &mut Vec<u64>, start: usize) {
    if start > 0 {
        spans[start] = spans[start - 1] - 1;
    } else {
        let first = [spans[0], spans[1]];
        spans.splice(2..2, first);
    }
}
