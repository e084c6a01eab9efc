//! How far a call looked (job 7): the leaves at the places that it names, and the longest word among them.
//!
//! The conversion has no part in this, and no leaf is found by the way that finds weights: the rows' input digits are written down as
//! indexes, and the leaf of each place is searched for among all words.

use std::ops::Range;

use crate::element::Operation;
use crate::table::{Leaf, Table, LONGEST_WORD};

/// The facts of a leaf look-up: the leaf's number and its word's length.
#[derive(Clone, Copy, Debug, PartialEq, Eq)]
pub struct LeafFacts {
    pub leaf: usize,
    pub length: usize,
}

/// A string of eight input indexes, the first at the place that is looked at and the others below it.
pub type Window = [u8; LONGEST_WORD];

/// The one leaf whose word begins a window, found by trying every leaf. None where no word does, which rule 12 leaves for windows
/// of other bytes than input indexes only.
pub fn look_up(table: &Table, window: &Window) -> Option<LeafFacts> {
    let begins = |leaf: &Leaf| window.starts_with(&leaf.word);
    let leaf = table.leaves.iter().position(begins)?;
    let length = table.leaves[leaf].word.len();
    Some(LeafFacts { leaf, length })
}

/// The places that addition and subtraction of rows of n digits look up: 0 to n + h − 1, the ones above the rows too.
pub fn places_of_rows(table: &Table, length: usize) -> Range<i64> {
    0..(length + table.depth) as i64
}

/// The places that an edit at p looks up: p − 1 to p + h, leaving out −1.
pub fn places_of_edit(table: &Table, place: usize) -> Range<i64> {
    let lowest = place.saturating_sub(1);
    lowest as i64..(place + table.depth + 1) as i64
}

/// w(0), w(1) and so on of two rows, as input indexes; rules 8 and 42 see to it that each has one.
pub fn inputs(operation: Operation, table: &Table, first: &[u8], second: &[u8]) -> Vec<u8> {
    let digit = |index: &u8| &table.alphabet[usize::from(*index)];
    let index = |(x, y)| {
        let input = operation.of(digit(x), digit(y));
        let record = table.inputs.iter().position(|known| *known == input);
        record.expect("rules 8 and 42: an input digit") as u8
    };
    first.iter().zip(second).map(index).collect()
}

/// The window at a place: w(j), w(j−1), w(j−2) and so on; outside the rows is record 0, the digit zero.
pub fn window(inputs: &[u8], place: i64) -> Window {
    let at = |place: i64| usize::try_from(place).ok().and_then(|at| inputs.get(at));
    std::array::from_fn(|below| at(place - below as i64).copied().unwrap_or(0))
}

/// The word lengths of the leaves at some places, lowest place first.
pub fn word_lengths(table: &Table, inputs: &[u8], places: Range<i64>) -> Vec<usize> {
    let at = |place| look_up(table, &window(inputs, place));
    let leaves = places.map(|place| at(place).expect("rule 12: every window begins with a leaf"));
    leaves.map(|leaf| leaf.length).collect()
}

/// The reach: the greatest length that a leaf at one of these places has.
pub fn reach(table: &Table, inputs: &[u8], places: Range<i64>) -> usize {
    let lengths = word_lengths(table, inputs, places);
    let found = (1..=LONGEST_WORD).rfind(|length| lengths.contains(length));
    found.expect("h is at least 1, so there is a place")
}
