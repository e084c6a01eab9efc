//! Kinds of cases of the reach (job 7): where the longest words stand, in the places that a call looks up and next to them.

use super::Kind;
use crate::interface::{Call, Lent};
use crate::looks::Looks;

/// Of a call that was taken, from the buffers that it was lent and left.
pub fn met(call: &Call, before: &Lent, lent: &Lent) -> Vec<(bool, Kind)> {
    let Some(looks) = Looks::of(call, lent) else {
        return Vec::new();
    };
    let reach = lent.answer[2];
    let less = reach < looks.depth();
    match *call {
        Call::Edit { place, .. } => {
            let mut kinds = edit(&looks, place as i64, reach);
            kinds.push((less, Kind::EditReachesLess));
            let earlier = looks.in_rows_of(call, before);
            let earlier = earlier.longest(earlier.places(call));
            kinds.push((earlier < reach, Kind::ReachGained));
            kinds.push((earlier > reach, Kind::ReachLost));
            kinds
        }
        Call::Subtract => {
            let mut kinds = rows(&looks, reach);
            kinds.push((less, Kind::SubtractReachesLess));
            let sums = looks.in_rows_of(&Call::Add, lent);
            let of_sums = sums.longest(sums.places(&Call::Add));
            kinds.push((of_sums != reach, Kind::ReachOfDifferences));
            kinds
        }
        _ => {
            let mut kinds = rows(&looks, reach);
            kinds.push((less, Kind::AddReachesLess));
            kinds
        }
    }
}

/// Of addition or subtraction.
fn rows(looks: &Looks, reach: i64) -> Vec<(bool, Kind)> {
    let length = looks.rows();
    let above = length > 0 && looks.longest(0..length) < reach;
    let rest = looks.longest(1..looks.places(&Call::Add).end);
    let long_zeros = looks.zeros() > 1;
    vec![
        (above, Kind::LongestAbove),
        (above && looks.zeros() < reach, Kind::LongestAboveNotZeros),
        (rest < reach, Kind::LongestAtPlace0),
        (length == 0 && long_zeros, Kind::LongZerosWithoutRows),
    ]
}

/// Of an edit at a place, in the rows as edited.
fn edit(looks: &Looks, place: i64, reach: i64) -> Vec<(bool, Kind)> {
    let top = place + looks.depth();
    let below = place > 0 && looks.longest(place..top + 1) < reach;
    let from = (place - 1).max(0);
    let in_rows = looks.longest(from..looks.rows().min(top + 1));
    let at_top = looks.longest(from..top) < reach;
    let longer = |place: i64| looks.length(place) > reach;
    vec![
        (below, Kind::LongestBelowEdit),
        (below && place == 1, Kind::LongestBelowEditAt1),
        (at_top, Kind::LongestAtTopOfEdit),
        (in_rows < reach, Kind::LongestAboveInEdit),
        (place == 0 && longer(-1), Kind::LongerBelowZero),
        (place > 1 && longer(place - 2), Kind::LongerBelowEdit),
        (longer(top + 1), Kind::LongerAboveEdit),
    ]
}
