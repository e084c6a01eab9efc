//! Orders of edits (job 10): when one list of edits is the other in another order that keeps the edits of each target as they follow one another.
//!
//! No permutation is looked for: of each target that either list names, both have to have the same list of edits.

use crate::by_table::Asked;

/// What an edit names, taken or refused: row number and place, the paper's cell.
pub type Target = (u64, u64);

pub fn target((row, place, _): Asked) -> Target {
    (row, place)
}

/// One list is a reordering of the other, and the edits of each target are in the same order in both.
pub fn keeps_targets(edits: &[Asked], others: &[Asked]) -> bool {
    let mut named = edits.iter().chain(others).map(|edit| target(*edit));
    named.all(|name| of_target(edits, name) == of_target(others, name))
}

/// The edits of a target, in the order of the list.
fn of_target(edits: &[Asked], name: Target) -> Vec<Asked> {
    let of_target = edits.iter().filter(|edit| target(**edit) == name);
    of_target.copied().collect()
}
