//! Lent memory of every length around the need: none, one short, exactly enough, and more.

use super::draft::*;
use super::faults::BASE;
use super::fixed_examples::{from_fresh, p1};

pub fn drafts() -> Vec<Draft> {
    let mut drafts = Vec::new();
    let base = table_of(&BASE);
    for (kind, need) in [(LIST, 12), (FIRSTS, 6), (WRITE, 22)] {
        for room in [0, 1, need - 1, need, need + 1, need + 9] {
            drafts.push(Draft::new(kind).table(&base).room(room));
        }
    }
    for room in [0, 1, 6, 7, 8, 20] {
        drafts.push(from_fresh(RUN, &base, &[0, 1, 0, 1, 0, 0, 0]).room(room));
    }
    for room in [0, 1, 5] {
        drafts.push(from_fresh(RUN, &base, &[]).room(room));
    }
    drafts.extend(wide());
    drafts.extend(before_room());
    drafts
}

/// Rooms of 16,384 and over: "a room over 16,384 counts as 16,384".
fn wide() -> Vec<Draft> {
    vec![
        Draft::new(LIST).table(&p1()).room(16_385),
        Draft::new(FIRSTS).table(&p1()).room(65_535),
        Draft::new(WRITE).table(&p1()).room(20_000),
        from_fresh(RUN, &p1(), &[0, 1]).room(16_384),
    ]
}

/// 7 before 8, and 9 before 8.
fn before_room() -> Vec<Draft> {
    let tight = table_of(&[(4, 1, 2), (6, 1, 3)]);
    let mut drafts: Vec<Draft> = [LIST, FIRSTS, WRITE].iter().map(|kind| Draft::new(*kind).table(&tight)).collect();
    drafts.push(from_fresh(RUN, &tight, &[0]).room(0));
    drafts.push(Draft::new(RUN).table(&p1()).list(&[0, 0]).room(1));
    drafts
}
