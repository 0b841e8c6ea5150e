//! Refused and accepted tables at every entry that takes a table, and pairs of numbers for their divisor.

use super::draft::*;
use super::faults::{self, Fault};
use super::fixed_examples::from_fresh;

/// The entries that take a table, besides `rows` and `check`.
const OTHERS: [u8; 12] = [LIST, FIRSTS, CLOCK, WRITE, FRESH, ASKED, WAITING, STEP, RUN, LOST, LOST_FRESH, BAGS];

pub fn drafts() -> Vec<Draft> {
    let mut drafts = divisors();
    drafts.extend(all_faults());
    drafts.extend(some_faults());
    drafts.extend(accepted());
    drafts
}

fn divisors() -> Vec<Draft> {
    let pairs: [(u16, u16); 10] = [
        (0, 0),
        (0, 5),
        (5, 0),
        (1, 1),
        (12, 18),
        (18, 12),
        (65_535, 65_535),
        (65_535, 0),
        (65_535, 65_534),
        // Neighbours in Fibonacci's row take Euclid's rule the most steps.
        (28_657, 46_368),
    ];
    let draft = |&(x, y): &(u16, u16)| Draft::new(GCD).list(&[x.to_be_bytes(), y.to_be_bytes()].concat());
    pairs.iter().map(draft).collect()
}

/// Every fault at the two entries that answer nothing but the cycle.
fn all_faults() -> Vec<Draft> {
    let mut drafts = Vec::new();
    for fault in faults::single().iter().chain(&faults::double()) {
        for kind in [ROWS, CHECK] {
            drafts.push(Draft::new(kind).table(&fault.table));
        }
    }
    drafts
}

/// At every other entry, two causes of each number, in two rows if it names any, and three of the doubled faults; other
/// ones from entry to entry.
fn some_faults() -> Vec<Draft> {
    let mut drafts = Vec::new();
    let double = faults::double();
    for (turn, kind) in OTHERS.iter().enumerate() {
        for number in 1..=7 {
            let mut causes: Vec<Fault> = faults::single().into_iter().filter(|fault| fault.number == number).collect();
            let first_one = turn % causes.len();
            causes.rotate_left(first_one);
            let other = causes.iter().find(|fault| fault.row != causes[0].row).unwrap_or(&causes[1]);
            drafts.push(refused(*kind, &causes[0]));
            drafts.push(refused(*kind, other));
        }
        for step in 0..3 {
            drafts.push(refused(*kind, &double[(turn + 5 * step) % double.len()]));
        }
    }
    drafts
}

/// A case whose table is refused. What else it has would be refused too, but comes later in the order.
fn refused(kind: u8, fault: &Fault) -> Draft {
    let mut record = record_of(65_535, &[]);
    record.entries[0].left = u16::from(fault.number);
    let draft = Draft::new(kind).table(&fault.table).record(&record).list(&[3, 1]);
    draft.bags(0, &[3, 3, 2, 1, 0]).room(1).buffer(1)
}

fn accepted() -> Vec<Draft> {
    let mut drafts = Vec::new();
    for table in faults::accepted() {
        for kind in [ROWS, CHECK, FRESH] {
            drafts.push(Draft::new(kind).table(&table));
        }
        let short_cycle = table.used().iter().all(|row| row.period < 1000);
        if short_cycle {
            drafts.push(Draft::new(LIST).table(&table).room(180));
            drafts.push(Draft::new(FIRSTS).table(&table).room(16));
            drafts.push(from_fresh(RUN, &table, &[0; 20]));
        }
    }
    drafts
}
