//! Kinds of orders of edits (job 10). A case knows how its edits stand to each other and counts them itself.

use std::collections::BTreeSet;

use reference::reorderings::target;
use reference::Asked;

use super::Kind;
use crate::codes::LONGEST_WORD;
use crate::interface::Lent;
use crate::orders::{Law, Same, Standing};

/// Of the table and the sum.
pub fn of_table(lent: &Lent, standing: &Standing) -> Vec<(bool, Kind)> {
    let degree = lent.degree();
    vec![
        (lent.table == reference::tern(), Kind::OrdersByTern),
        (lent.table == reference::bin(), Kind::OrdersByBin),
        (degree == 3, Kind::OrdersOfThree),
        (degree == 4, Kind::OrdersOfFour),
        (standing.depth == LONGEST_WORD as u64, Kind::OrdersByDeepest),
        (!standing.right, Kind::OrdersFromAnySum),
    ]
}

/// Of two edits.
pub fn of_edits([e, f]: [Asked; 2], standing: &Standing) -> Vec<(bool, Kind)> {
    let &Standing {
        distance,
        depth,
        one_target,
        ..
    } = standing;
    if !standing.taken {
        return vec![(true, Kind::OrdersWithRefused)];
    }
    vec![
        (one_target, Kind::OrdersOfOneTarget),
        (distance == 0 && !one_target, Kind::OrdersOfOnePlace),
        ((1..depth).contains(&distance), Kind::OrdersNear),
        (distance == depth, Kind::OrdersAtDepth),
        (distance == depth + 1, Kind::OrdersJustBeyond),
        (distance > depth + 1, Kind::OrdersFarApart),
        (e.0 == f.0 && !one_target, Kind::OrdersInOneRow),
    ]
}

/// Of what is demanded, and of what differs where it isn't.
pub fn of_answers(standing: &Standing, same: &Same) -> Vec<(bool, Kind)> {
    let &Standing {
        distance,
        depth,
        one_target,
        taken,
        right,
    } = standing;
    let (at_depth, law) = (distance == depth, Law::Right);
    let counts = law.same_counts(standing);
    let two_targets = taken && !one_target;
    vec![
        (law.same_rows(standing), Kind::RowsDemanded),
        (counts && at_depth, Kind::CountsDemandedAtDepth),
        (counts && !at_depth, Kind::CountsDemandedBeyond),
        (counts && !right, Kind::CountsDemandedFromAnySum),
        (law.same_reach(standing), Kind::ReachDemanded),
        (
            at_depth && law.same_higher_reach(standing),
            Kind::HigherReachDemandedAtDepth,
        ),
        (
            taken && one_target && !same.rows,
            Kind::RowsDifferOfOneTarget,
        ),
        (
            two_targets && right && distance < depth && !same.counts,
            Kind::CountsDifferNear,
        ),
        (taken && at_depth && !same.counts, Kind::CountsDifferAtDepth),
        (taken && at_depth && !same.reach, Kind::ReachDiffersAtDepth),
    ]
}

/// Of the sum before two edits, between them and after them. Where their places are h apart, both renew the higher one's place.
pub fn of_sums(edits: [Asked; 2], standing: &Standing, sums: [&Vec<u8>; 3]) -> Vec<(bool, Kind)> {
    if !standing.taken || !standing.right || standing.distance != standing.depth {
        return Vec::new();
    }
    let place = edits.map(|edit| edit.1 as usize).into_iter().max();
    let digits = sums.map(|sum| place.and_then(|place| sum.get(place)));
    let both_change = digits[0] != digits[1] && digits[1] != digits[2];
    vec![(both_change, Kind::SharedPlaceChanges)]
}

/// Of a list in an order that keeps targets.
pub fn of_reordering(
    [edits, others]: [&[Asked]; 2],
    refused: bool,
    right: bool,
    same_total: bool,
) -> Vec<(bool, Kind)> {
    let targets: BTreeSet<_> = edits.iter().map(|edit| target(*edit)).collect();
    vec![
        (edits != others, Kind::Reordered),
        (refused, Kind::ReorderedWithRefused),
        (targets.len() < edits.len(), Kind::ReorderedRepeats),
        (!right, Kind::ReorderedFromAnySum),
        (!same_total, Kind::TotalsDiffer),
    ]
}

/// Of a list in an order that doesn't.
pub fn of_turned_targets(same_rows: bool) -> Vec<(bool, Kind)> {
    vec![
        (true, Kind::TargetsTurned),
        (!same_rows, Kind::RowsDifferTurned),
    ]
}
