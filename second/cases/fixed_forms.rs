//! Bodies that are empty, too short for their arguments or longer than them, and unknown kinds.

use super::draft::*;
use super::fixed_examples::{from_fresh, p1};
use crate::file;

pub fn bodies() -> Vec<Vec<u8>> {
    let mut bodies = vec![vec![]];
    for kind in [0, 17, 18, 128, 255] {
        bodies.push(vec![kind]);
        bodies.push(vec![kind, 1, 0, 2, 1, 0, 4, 0, 1, 0, 1]);
    }
    for kind in 1..=16 {
        bodies.extend(short(kind));
        bodies.push(long(kind));
    }
    bodies
}

/// The whole body of a case that is accepted.
fn whole(kind: u8) -> Vec<u8> {
    let list = match kind {
        GCD => vec![1, 2, 3, 4],
        READ => file::bytes_of(&p1()),
        STEP => vec![1],
        RUN | LOST | LOST_FRESH => vec![0, 1, 0],
        BAGS => vec![0, 1, 0, 1, 0],
        _ => vec![],
    };
    let mut draft = from_fresh(kind, &p1(), &list).bags(1, &[0, 4, 4, 5]).room(31);
    draft.whole = true;
    draft.body()
}

/// The same body cut inside its head, its table, its record and what stands behind that: "Bytes that a body doesn't have count as 0."
fn short(kind: u8) -> Vec<Vec<u8>> {
    let whole = whole(kind);
    let mut bodies = Vec::new();
    for size in [1, 3, 10, 102, 183, 184, 185] {
        if size < whole.len() {
            bodies.push(whole[..size].to_vec());
        }
    }
    bodies
}

/// The same body with bytes after it: past the arguments of the kinds with no list they stand at no place that is
/// looked at, and at the end of a list they are more of it.
fn long(kind: u8) -> Vec<u8> {
    [whole(kind), vec![2, 1, 0, 255]].concat()
}
