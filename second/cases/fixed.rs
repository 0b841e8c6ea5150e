//! The systematic part of the cases, put together.

use super::draft::Draft;
use super::{
    fixed_bags, fixed_buffers, fixed_dosing, fixed_examples, fixed_files, fixed_forms, fixed_long, fixed_records,
    fixed_reports, fixed_rooms, fixed_tables,
};
use crate::numbers::Numbers;

/// The bodies of the systematic part. What lent memory holds before the call is the one thing taken from the seed, but
/// for the bodies whose point it is.
pub fn bodies(numbers: &mut Numbers) -> Vec<Vec<u8>> {
    let mut bodies = Vec::new();
    for mut draft in drafts() {
        draft.fill = numbers.byte();
        bodies.push(draft.body());
    }
    bodies.extend(fixed_buffers::bodies());
    bodies.extend(fixed_bags::bodies());
    bodies.extend(fixed_forms::bodies());
    bodies
}

fn drafts() -> Vec<Draft> {
    let mut drafts = fixed_examples::drafts();
    drafts.extend(fixed_tables::drafts());
    drafts.extend(fixed_files::drafts());
    drafts.extend(fixed_rooms::drafts());
    drafts.extend(fixed_records::drafts());
    drafts.extend(fixed_reports::drafts());
    drafts.extend(fixed_buffers::drafts());
    drafts.extend(fixed_long::drafts());
    drafts.extend(fixed_bags::drafts());
    drafts.extend(fixed_dosing::drafts());
    drafts
}
