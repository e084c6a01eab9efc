//! Where long words stand in the rows of a call (job 7): the lengths of the leaves' words place by place, also at places that the call
//! doesn't look up.

use std::ops::Range;

use reference::table::{self, Table};
use reference::{reach, Operation};

use crate::interface::{Call, Lent};

/// Rows with the table that converts them.
pub struct Looks {
    table: Table,
    inputs: Vec<u8>,
}

impl Looks {
    /// The rows as lent to a call or left by it. The table has to be past 1 to 13, and the rows have to be ones that the call takes.
    pub fn of(call: &Call, lent: &Lent) -> Option<Self> {
        let table = table::read(&lent.table).ok()?;
        let inputs = Vec::new();
        Some(Looks { table, inputs }.in_rows_of(call, lent))
    }

    /// Other rows with the same table.
    pub fn in_rows_of(self, call: &Call, lent: &Lent) -> Self {
        let operation = match call {
            Call::Subtract => Operation::Difference,
            _ => Operation::Sum,
        };
        let inputs = reach::inputs(operation, &self.table, &lent.first, &lent.second);
        Looks { inputs, ..self }
    }

    /// n, the length of the rows.
    pub fn rows(&self) -> i64 {
        self.inputs.len() as i64
    }

    /// h, the longest word of all.
    pub fn depth(&self) -> i64 {
        self.table.depth as i64
    }

    /// The length of leaf 0's word, which is that of zeros.
    pub fn zeros(&self) -> i64 {
        self.table.leaves[0].word.len() as i64
    }

    /// The places that the call looks up.
    pub fn places(&self, call: &Call) -> Range<i64> {
        match *call {
            Call::Edit { place, .. } => reach::places_of_edit(&self.table, place as usize),
            _ => reach::places_of_rows(&self.table, self.inputs.len()),
        }
    }

    /// The word lengths at some places, lowest place first.
    pub fn lengths(&self, places: Range<i64>) -> Vec<i64> {
        let lengths = reach::word_lengths(&self.table, &self.inputs, places);
        lengths.into_iter().map(|length| length as i64).collect()
    }

    /// The word length at a place.
    pub fn length(&self, place: i64) -> i64 {
        self.longest(place..place + 1)
    }

    /// The greatest of the lengths at some places, and 1 for no place at all, as every word has a digit.
    pub fn longest(&self, places: Range<i64>) -> i64 {
        self.lengths(places).into_iter().fold(1, i64::max)
    }
}
