//! Bag reports that are refused, by each cause of each number and by two at once, and the form of their spans.

use super::draft::*;
use super::fixed_examples::{from_fresh, p1, P2_REPORTS};
use crate::form::{MOST_SPAN_NUMBERS, SPAN_COUNT_PLACE};

const MOST: u64 = u64::MAX;

/// Lists that are refused by 15 for a run of ten slots, each for one cause, in its first span or in a later one; some
/// by numbers that narrow arithmetic would take for small ones.
const REFUSED: [&[u64]; 34] = [
    // An odd list.
    &[0],
    &[10],
    &[MOST],
    &[0, 5, 5],
    &[0, 5, 5, 10, 10],
    // A span without a slot.
    &[0, 0],
    &[5, 5],
    &[10, 10],
    &[0, 5, 5, 5, 5, 10],
    // One that ends before its start.
    &[5, 0],
    &[6, 5],
    &[0, 5, 10, 6],
    &[MOST, 0],
    &[1 << 63, 5],
    &[1 << 32, 10],
    &[0, 5, (1 << 32) + 5, 10],
    // One that ends past the slots run.
    &[0, 11],
    &[10, 11],
    &[11, 12],
    &[0, 5, 5, 11],
    &[0, 256],
    &[0, 65_546],
    &[0, 4_294_967_295],
    &[0, 4_294_967_296 + 5],
    &[4_294_967_296, 4_294_967_296 + 5],
    &[0, 1 << 63],
    &[0, MOST],
    &[MOST - 1, MOST],
    &[MOST, MOST],
    &[0, 5, MOST - 4, 5],
    // One that starts before the previous end.
    &[0, 5, 4, 10],
    &[0, 10, 0, 10],
    &[5, 10, 0, 5],
    &[0, 3, 4, 7, 6, 8],
];

pub fn drafts() -> Vec<Draft> {
    let mut drafts = rooms();
    drafts.extend(reports());
    drafts.extend(rows());
    drafts.extend(spans());
    drafts.extend(orders());
    drafts
}

/// Bodies that are cut before the dosing row, the count, and inside and after the numbers of two spans; and bodies
/// whose count is another one, so that numbers are taken for reports or reports for numbers.
pub fn bodies() -> Vec<Vec<u8>> {
    let whole = filled(on_p2(1, &[0, 5, 5, 10]).room(3));
    let mut bodies = Vec::new();
    for size in [101, 102, 103, 110, 111, 118, 119, 134, 135, 140] {
        bodies.push(whole[..size].to_vec());
    }
    for count in [0, 1, 2, 3, 5, 6, 7, 64] {
        bodies.push(with_count(&whole, count));
    }
    // The most numbers there can be, a bag for each of 32 slots: "over 64 counts as 64".
    let spans: Vec<u64> = (0..MOST_SPAN_NUMBERS as u64).map(|index| (index + 1) / 2).collect();
    let whole = filled(from_fresh(BAGS, &p1(), &[0; 32]).bags(2, &spans));
    for count in [64, 65, 128, 255] {
        bodies.push(with_count(&whole, count));
    }
    bodies
}

/// The same body with this count.
fn with_count(body: &[u8], count: u8) -> Vec<u8> {
    let mut body = body.to_vec();
    body[SPAN_COUNT_PLACE] = count;
    body
}

/// The body of a draft whose lent memory holds no mark before the call.
fn filled(mut draft: Draft) -> Vec<u8> {
    draft.fill = 200;
    draft.body()
}

/// P2's run, of ten slots, with this dosing row and these spans.
fn on_p2(row: u8, spans: &[u64]) -> Draft {
    from_fresh(BAGS, &p1(), &P2_REPORTS).bags(row, spans)
}

/// 8: a byte short for one pair and for many, also where the list is odd, and none at all; enough, more, and more than
/// counts.
fn rooms() -> Vec<Draft> {
    let lists: [&[u64]; 4] = [&[0, 5], &[0, 1, 2, 3, 4, 5, 6, 7, 8, 9], &[0, 5, 5], &[0, 5, 5, 10, 10]];
    let mut drafts = Vec::new();
    for spans in lists {
        let need = spans.len() / 2;
        for room in need - 1..=need + 1 {
            drafts.push(on_p2(1, spans).room(room));
        }
    }
    drafts.push(on_p2(1, &[0, 5, 5, 10]).room(0));
    drafts.push(on_p2(1, &[]).room(3));
    drafts.push(on_p2(1, &[0, 10]).room(16_385));
    drafts
}

/// 10 and 11: at the first, a middle and the last slot, at an alternate's slot and at an idle one, "10 before 11" in a
/// slot and the earlier slot before.
fn reports() -> Vec<Draft> {
    let lists: [&[u8]; 9] = [
        &[3],
        &[255, 0, 0, 0, 0],
        &[0, 2, 0, 0, 4],
        &[0, 2, 0, 1, 0],
        &[0, 2, 0, 0, 0, 2],
        &[0, 1, 0, 1, 1],
        &[0, 2, 0, 3],
        &[0, 2, 0, 1, 3],
        &[0, 2, 3, 1, 0],
    ];
    lists.iter().map(|reports| from_fresh(BAGS, &p1(), reports).bags(1, &[0, 1])).collect()
}

/// 14: row 0, the row after the last one, and rows that no table has; of two rows, of one and of sixteen.
fn rows() -> Vec<Draft> {
    let mut drafts = Vec::new();
    for row in [0, 3, 4, 16, 17, 18, 128, 255] {
        drafts.push(on_p2(row, &[0, 5]));
    }
    for (table, row) in [(table_of(&[(4, 1, 4)]), 2), (table_of(&[(16, 1, 1); 16]), 17)] {
        drafts.push(from_fresh(BAGS, &table, &[0; 4]).bags(row, &[]));
    }
    // Without a slot and without a span too.
    drafts.push(from_fresh(BAGS, &p1(), &[]).bags(0, &[]));
    drafts
}

/// 15 by each of its causes.
fn spans() -> Vec<Draft> {
    let mut drafts: Vec<Draft> = REFUSED.iter().map(|spans| on_p2(1, spans)).collect();
    // Where no slot was run every span ends past them.
    drafts.push(from_fresh(BAGS, &p1(), &[]).bags(2, &[0, 1]));
    drafts.push(from_fresh(BAGS, &p1(), &[]).bags(2, &[0, 0]));
    drafts
}

/// Two refusals at once, neighbours in the order 7, 8, 10, 11, 14, 15 and some that are further apart.
fn orders() -> Vec<Draft> {
    let tight = table_of(&[(4, 1, 2), (6, 1, 3)]);
    let on = |reports: &[u8], row, spans: &[u64]| from_fresh(BAGS, &p1(), reports).bags(row, spans);
    vec![
        // 7 before 8, 10, 14 and 15.
        from_fresh(BAGS, &tight, &[0]).bags(1, &[0, 1]).room(0),
        from_fresh(BAGS, &tight, &[3]).bags(1, &[0, 1]),
        from_fresh(BAGS, &tight, &[0]).bags(3, &[0, 1]),
        from_fresh(BAGS, &tight, &[0]).bags(1, &[0, 2]),
        // 8 before 10, 11, 14 and 15, the last for an odd list too.
        on(&[3], 1, &[0, 1]).room(0),
        on(&[0, 2, 0, 1], 1, &[0, 1]).room(0),
        on(&[0], 0, &[0, 1]).room(0),
        on(&[0], 1, &[1, 0]).room(0),
        on(&[0], 1, &[0, 1, 1, 2, 2]).room(1),
        // 10 before 14 and 15.
        on(&[3], 0, &[0, 1]),
        on(&[0, 3], 3, &[0, 1]),
        on(&[3], 1, &[0]),
        on(&[0, 0, 255], 1, &[3, 4]),
        // 11 before 14 and 15.
        on(&[0, 2, 0, 1], 255, &[0, 1]),
        on(&[0, 2, 0, 1], 1, &[1, 1]),
        on(&[0, 2, 0, 1], 1, &[3, 4]),
        // 14 before 15.
        on(&[0], 3, &[0]),
        on(&[0], 0, &[1, 0]),
        on(&[0, 0], 17, &[0, 3]),
        on(&[0, 0], 255, &[0, 2, 1, 2]),
        on(&[], 0, &[MOST, 0]),
    ]
}
