//! The calls of document 01 and of the jobs that have landed. Each reads its table anew.

use crate::answer::Answer;
use crate::bad_row::BadRow;
use crate::by_table::{self, Asked, EditFacts, ForecastFacts, RowFacts, TableFacts};
use crate::element::{Element, Operation};
use crate::reach::{self, LeafFacts, Window};
use crate::table;

/// The table check: rules 1 to 14.
pub fn check(file: &[u8]) -> Answer<TableFacts> {
    by_table::check(&table::read(file))
}

/// The row that refusal 14 is about, or none where the check accepts (job 5).
pub fn bad_row(file: &[u8]) -> Answer<Option<BadRow>> {
    by_table::bad_row(&table::read(file))
}

/// What an addition of two rows of so many digits will take (job 13).
pub fn forecast(file: &[u8], digits: u64) -> Answer<ForecastFacts> {
    by_table::forecast(&table::read(file), digits)
}

/// The leaf look-up. Of files that aren't past 1 to 13, and of windows that no word begins, the papers say nothing: none.
pub fn look_up(file: &[u8], window: &Window) -> Option<LeafFacts> {
    reach::look_up(&table::read(file).ok()?, window)
}

/// Addition: writes the sum row of n + h digits and says its length and the reach. A refused call writes nothing.
pub fn add(file: &[u8], first: &[u8], second: &[u8], sum: &mut [u8]) -> Answer<RowFacts> {
    by_table::combine(Operation::Sum, &table::read(file), first, second, sum)
}

/// Subtraction (job 2): the same with the first row's digits minus the second's.
pub fn subtract(
    file: &[u8],
    first: &[u8],
    second: &[u8],
    difference: &mut [u8],
) -> Answer<RowFacts> {
    let reading = table::read(file);
    by_table::combine(Operation::Difference, &reading, first, second, difference)
}

/// The digit edit.
pub fn edit(
    file: &[u8],
    first: &mut [u8],
    second: &mut [u8],
    sum: &mut [u8],
    asked: Asked,
) -> Answer<EditFacts> {
    by_table::edit(&table::read(file), first, second, sum, asked)
}

/// A list of edits.
pub fn run(
    file: &[u8],
    first: &mut [u8],
    second: &mut [u8],
    sum: &mut [u8],
    edits: &[Asked],
) -> Answer<Vec<Answer<usize>>> {
    by_table::run(&table::read(file), first, second, sum, edits)
}

/// The value of a row.
pub fn value(file: &[u8], row: &[u8]) -> Answer<Element> {
    by_table::value(&table::read(file), row)
}

/// The midpoint of two elements of signed 32-bit parts; a half goes to the even one of its two neighbours.
pub fn midpoint(x: &[i32], y: &[i32]) -> Vec<i32> {
    assert_eq!(x.len(), y.len(), "one ring");
    x.iter().zip(y).map(|(p, q)| half_sum(*p, *q)).collect()
}

/// Half of p + q: of the whole numbers next to it, which are one and the same where it is whole, the even one.
fn half_sum(p: i32, q: i32) -> i32 {
    let sum = i64::from(p) + i64::from(q);
    let below = sum.div_euclid(2);
    let above = sum - below;
    let half = if below % 2 == 0 { below } else { above };
    half as i32
}
