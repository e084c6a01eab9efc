//! The static library through its C interface. All unsafe code of the program is here.

use crate::interface::{Call, Calls, Lent};

extern "C" {
    fn yoyomyrtle_check(
        file: *const u8,
        file_len: usize,
        answer: *mut i64,
        answer_len: usize,
    ) -> u64;
    fn yoyomyrtle_bad_row(
        table: *const u8,
        table_len: usize,
        string: *mut u8,
        string_len: usize,
        answer: *mut i64,
        answer_len: usize,
    ) -> u64;
    fn yoyomyrtle_forecast(
        table: *const u8,
        table_len: usize,
        digits: u64,
        answer: *mut i64,
        answer_len: usize,
    ) -> u64;
    fn yoyomyrtle_add(
        table: *const u8,
        table_len: usize,
        first: *const u8,
        first_len: usize,
        second: *const u8,
        second_len: usize,
        sum: *mut u8,
        sum_len: usize,
        answer: *mut i64,
        answer_len: usize,
    ) -> u64;
    fn yoyomyrtle_subtract(
        table: *const u8,
        table_len: usize,
        first: *const u8,
        first_len: usize,
        second: *const u8,
        second_len: usize,
        difference: *mut u8,
        difference_len: usize,
        answer: *mut i64,
        answer_len: usize,
    ) -> u64;
    fn yoyomyrtle_edit(
        table: *const u8,
        table_len: usize,
        first: *mut u8,
        first_len: usize,
        second: *mut u8,
        second_len: usize,
        sum: *mut u8,
        sum_len: usize,
        row: u64,
        place: u64,
        digit: u64,
        answer: *mut i64,
        answer_len: usize,
    ) -> u64;
    fn yoyomyrtle_run(
        table: *const u8,
        table_len: usize,
        first: *mut u8,
        first_len: usize,
        second: *mut u8,
        second_len: usize,
        sum: *mut u8,
        sum_len: usize,
        rows: *const usize,
        rows_len: usize,
        places: *const usize,
        places_len: usize,
        digits: *const usize,
        digits_len: usize,
        whose: *mut usize,
        whose_len: usize,
        numbers: *mut usize,
        numbers_len: usize,
        values: *mut usize,
        values_len: usize,
        answer: *mut i64,
        answer_len: usize,
    ) -> u64;
    fn yoyomyrtle_value(
        table: *const u8,
        table_len: usize,
        row: *const u8,
        row_len: usize,
        answer: *mut i64,
        answer_len: usize,
    ) -> u64;
    fn yoyomyrtle_midpoint(
        a1: i32,
        b1: i32,
        c1: i32,
        d1: i32,
        a2: i32,
        b2: i32,
        c2: i32,
        d2: i32,
        answer: *mut i64,
        answer_len: usize,
    ) -> u64;
    fn yoyomyrtle_tern(out: *mut u8, out_len: usize) -> u64;
    fn yoyomyrtle_bin(out: *mut u8, out_len: usize) -> u64;
}

/// The linked library.
pub struct Library;

impl Calls for Library {
    fn call(&self, call: &Call, lent: &mut Lent) -> u64 {
        // Every buffer is held mutably, also where the library may only read, so that a byte written there would be seen.
        let (table, table_len) = (lent.table.as_mut_ptr(), lent.table.len());
        let (first, first_len) = (lent.first.as_mut_ptr(), lent.first.len());
        let (second, second_len) = (lent.second.as_mut_ptr(), lent.second.len());
        let (sum, sum_len) = (lent.sum.as_mut_ptr(), lent.sum.len());
        let (answer, words) = (lent.answer.as_mut_ptr(), lent.answer.len());
        // SAFETY: each pointer and length are those of a vector of its own that lives through the call, so no two overlap.
        unsafe {
            match *call {
                Call::Check => yoyomyrtle_check(table, table_len, answer, words),
                Call::BadRow => yoyomyrtle_bad_row(table, table_len, sum, sum_len, answer, words),
                Call::Forecast { digits } => {
                    yoyomyrtle_forecast(table, table_len, digits, answer, words)
                }
                Call::Add => yoyomyrtle_add(
                    table, table_len, first, first_len, second, second_len, sum, sum_len, answer,
                    words,
                ),
                Call::Subtract => yoyomyrtle_subtract(
                    table, table_len, first, first_len, second, second_len, sum, sum_len, answer,
                    words,
                ),
                Call::Edit { row, place, digit } => yoyomyrtle_edit(
                    table, table_len, first, first_len, second, second_len, sum, sum_len, row,
                    place, digit, answer, words,
                ),
                Call::Run => run(lent),
                Call::Value => yoyomyrtle_value(table, table_len, first, first_len, answer, words),
                Call::Midpoint { x, y } => yoyomyrtle_midpoint(
                    x[0], x[1], x[2], x[3], y[0], y[1], y[2], y[3], answer, words,
                ),
                Call::Tern => yoyomyrtle_tern(sum, sum_len),
                Call::Bin => yoyomyrtle_bin(sum, sum_len),
            }
        }
    }
}

/// The runner, which is lent every buffer.
///
/// SAFETY: as above.
unsafe fn run(lent: &mut Lent) -> u64 {
    yoyomyrtle_run(
        lent.table.as_mut_ptr(),
        lent.table.len(),
        lent.first.as_mut_ptr(),
        lent.first.len(),
        lent.second.as_mut_ptr(),
        lent.second.len(),
        lent.sum.as_mut_ptr(),
        lent.sum.len(),
        lent.rows.as_mut_ptr(),
        lent.rows.len(),
        lent.places.as_mut_ptr(),
        lent.places.len(),
        lent.digits.as_mut_ptr(),
        lent.digits.len(),
        lent.whose.as_mut_ptr(),
        lent.whose.len(),
        lent.numbers.as_mut_ptr(),
        lent.numbers.len(),
        lent.values.as_mut_ptr(),
        lent.values.len(),
        lent.answer.as_mut_ptr(),
        lent.answer.len(),
    )
}
