//! Kinds of mirrored tables and negated rows (job 3). A case knows whether its table is mirrored and counts them itself.

use reference::mirrored::negated_row;
use reference::table::Table;

use super::Kind;
use crate::interface::{Call, Lent};
use crate::tally::Outcome;

/// Of a table of a case.
pub fn of_table(lent: &Lent, table: &Table, mirrored: bool) -> Vec<(bool, Kind)> {
    let degree = lent.degree();
    let digits: Vec<u8> = (0..table.alphabet.len() as u8).collect();
    let unsymmetric = negated_row(table, &digits).is_none();
    vec![
        (mirrored, Kind::MirroredTable),
        (!mirrored, Kind::UnmirroredTable),
        (lent.table == reference::tern(), Kind::NegatedByTern),
        (lent.table == reference::bin(), Kind::NegatedByBin),
        (mirrored && degree == 3, Kind::MirroredOfThree),
        (mirrored && degree == 4, Kind::MirroredOfFour),
        (mirrored && table.depth > 2, Kind::MirroredLongWords),
        (mirrored && unsymmetric, Kind::MirroredUnsymmetric),
    ]
}

/// Of a call by a mirrored table.
pub fn kept(call: Call, outcome: Outcome) -> Vec<(bool, Kind)> {
    let taken = outcome == Outcome::Facts;
    let subtracts = call == Call::Subtract;
    vec![
        (taken && !subtracts, Kind::NegatedSum),
        (taken && subtracts, Kind::NegatedDifference),
        (!taken, Kind::NegatedRefused),
    ]
}

/// Of a call by a table that isn't: which part of the law doesn't hold of it.
pub fn broken(table: &Table, lent: &Lent, negated: &Lent) -> Vec<(bool, Kind)> {
    let digits = |lent: &Lent| lent.sum[..lent.answer[1] as usize].to_vec();
    let same = negated_row(table, &digits(lent)) == Some(digits(negated));
    vec![
        (!same, Kind::OtherDigits),
        (lent.answer[2] != negated.answer[2], Kind::OtherReach),
    ]
}
