//! Conversion: the digits of a sum or difference at some places ("Conversion and addition").

use std::ops::Range;

use crate::answer::{author, Fault};
use crate::element::{Element, Operation};
use crate::table::{Table, LONGEST_WORD};

/// The digits of a sum or difference at some places, or rule 27 at the lowest of them whose digit isn't in the alphabet. What the
/// operation makes of the rows' digits has to be input digits, as rules 8 and 42 see to.
pub fn converted_row(
    operation: Operation,
    table: &Table,
    first: &[u8],
    second: &[u8],
    places: Range<usize>,
) -> Result<Vec<u8>, Fault> {
    let input = |place: i64| input(operation, table, first, second, place);
    let mut digits = Vec::new();
    for place in places {
        let at = place as i64;
        let from_below = weight(table, input, at - 1);
        let carried_up = table.base.times(weight(table, input, at));
        let digit = &(&input(at) + from_below) - &carried_up;
        let index = table.digit_index(&digit);
        author(index.is_some(), 27, place)?;
        digits.extend(index);
    }
    Ok(digits)
}

/// w(j): the sum or difference of the two digits at a place, zero outside the rows.
fn input(operation: Operation, table: &Table, first: &[u8], second: &[u8], place: i64) -> Element {
    let digit = |row: &[u8]| {
        let index = usize::try_from(place).ok().and_then(|place| row.get(place));
        Some(&table.alphabet[usize::from(*index?)])
    };
    match (digit(first), digit(second)) {
        (Some(x), Some(y)) => operation.of(x, y),
        _ => Element::zero(table.base.degree()),
    }
}

/// q(j): the weight of the window w(j), w(j−1), w(j−2), and so on downward.
fn weight(table: &Table, input: impl Fn(i64) -> Element, place: i64) -> &Element {
    let below = 0..LONGEST_WORD as i64;
    let window: Vec<Element> = below.map(|below| input(place - below)).collect();
    table.weight(&window)
}
