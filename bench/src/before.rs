//! An earlier build of the library, for its timed calls; build.rs has put `before_` in front of its names. It may tell fewer facts.

use crate::interface::{Call, Calls, Lent};

#[rustfmt::skip]
extern "C" {
    fn before_yoyomyrtle_check(file: *const u8, file_len: usize, answer: *mut i64, words: usize) -> u64;
    fn before_yoyomyrtle_add(
        table: *const u8, table_len: usize, first: *const u8, first_len: usize, second: *const u8, second_len: usize,
        sum: *mut u8, sum_len: usize, answer: *mut i64, words: usize,
    ) -> u64;
    fn before_yoyomyrtle_subtract(
        table: *const u8, table_len: usize, first: *const u8, first_len: usize, second: *const u8, second_len: usize,
        difference: *mut u8, difference_len: usize, answer: *mut i64, words: usize,
    ) -> u64;
    fn before_yoyomyrtle_edit(
        table: *const u8, table_len: usize, first: *mut u8, first_len: usize, second: *mut u8, second_len: usize,
        sum: *mut u8, sum_len: usize, row: u64, place: u64, digit: u64, answer: *mut i64, words: usize,
    ) -> u64;
    fn before_yoyomyrtle_value(table: *const u8, table_len: usize, row: *const u8, row_len: usize, answer: *mut i64, words: usize) -> u64;
}

/// The earlier build.
pub struct Before;

impl Before {
    /// It has the call, whatever build it is.
    pub fn has(call: &Call) -> bool {
        use Call::*;
        matches!(call, Check | Add | Subtract | Edit { .. } | Value)
    }
}

impl Calls for Before {
    fn call(&self, call: &Call, lent: &mut Lent) -> u64 {
        let (table, table_len) = (lent.table.as_ptr(), lent.table.len());
        let (first, first_len) = (lent.first.as_mut_ptr(), lent.first.len());
        let (second, second_len) = (lent.second.as_mut_ptr(), lent.second.len());
        let (sum, sum_len) = (lent.sum.as_mut_ptr(), lent.sum.len());
        let (answer, words) = (lent.answer.as_mut_ptr(), lent.answer.len());
        // SAFETY: each pointer and length are those of a vector of its own that lives through the call, so no two overlap.
        unsafe {
            match *call {
                Call::Check => before_yoyomyrtle_check(table, table_len, answer, words),
                Call::Add => before_yoyomyrtle_add(
                    table, table_len, first, first_len, second, second_len, sum, sum_len, answer,
                    words,
                ),
                Call::Subtract => before_yoyomyrtle_subtract(
                    table, table_len, first, first_len, second, second_len, sum, sum_len, answer,
                    words,
                ),
                Call::Edit { row, place, digit } => before_yoyomyrtle_edit(
                    table, table_len, first, first_len, second, second_len, sum, sum_len, row,
                    place, digit, answer, words,
                ),
                Call::Value => {
                    before_yoyomyrtle_value(table, table_len, first, first_len, answer, words)
                }
                _ => unreachable!("not a call that is timed against an earlier build"),
            }
        }
    }
}
