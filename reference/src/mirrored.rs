//! Mirrored tables (job 3): whether negating every digit of a word gives a word whose weight is the negated weight, and the negated row of a row.
//!
//! No word is looked up and no index is mirrored: all leaves are written out in elements, and the set of them is compared with that of the
//! negated ones.

use std::collections::BTreeSet;

use crate::element::Element;
use crate::table::{Leaf, Table};

/// A leaf in elements: the digits of its word, and its weight.
type Written = (Vec<Element>, Element);

/// The table is mirrored. No two leaves are negated to the same one, so that the set is its own negated set as soon as each negated leaf is a
/// leaf. Rule 14 has no part in this, and the alphabet hasn't either.
pub fn is_mirrored(table: &Table) -> bool {
    let leaves = table.leaves.iter().map(|leaf| written(table, leaf));
    let leaves: BTreeSet<Written> = leaves.collect();
    let negated: BTreeSet<Written> = leaves.iter().map(negated_leaf).collect();
    leaves == negated
}

fn written(table: &Table, leaf: &Leaf) -> Written {
    let digits = leaf.word.iter();
    let digits = digits.map(|index| table.inputs[usize::from(*index)].clone());
    (digits.collect(), leaf.weight.clone())
}

fn negated_leaf((word, weight): &Written) -> Written {
    (word.iter().map(|digit| -digit).collect(), -weight)
}

/// The negated row: at each place the index of the alphabet digit that gives zero with the row's digit. None where the alphabet lacks such a
/// digit, and of bytes that are no alphabet indexes.
pub fn negated_row(table: &Table, row: &[u8]) -> Option<Vec<u8>> {
    let negated = |index: &u8| {
        let digit = table.alphabet.get(usize::from(*index))?;
        let cancels = |other: &Element| (digit + other).is_zero();
        let found = table.alphabet.iter().position(cancels)?;
        Some(found as u8)
    };
    row.iter().map(negated).collect()
}
