//! Values of rows, and midpoints.

use reference::{Answer, Element, Parts};

use super::lending::{answer_array, lend, row, row_length};
use crate::division;
use crate::interface::{Call, Lent, Passed};
use crate::pool::Pool;
use crate::random::Random;
use crate::tally::Comparison;

/// Values of rows of all lengths, with digits that grow as fast as they can or cancel out.
pub fn values(pool: &Pool, comparison: &mut Comparison, random: &mut Random) {
    let parts = pool.accepted(random);
    let mut lent = lend(&parts, parts.write(), random);
    let length = match random.below(3) {
        0 => row_length(random),
        _ => 8 + random.below(40),
    };
    lent.first = row(&parts, length, random);
    if random.one_in(3) {
        let same = random.below(parts.alphabet.len()) as u8;
        lent.first.fill(same);
    }
    comparison.call(Call::Value, &mut lent);
    if random.one_in(2) {
        near_the_limit(&parts, comparison, &mut lent, random);
    }
}

/// A row whose value just passes, ended with each digit; or the row of an element at the very limit.
fn near_the_limit(
    parts: &Parts,
    comparison: &mut Comparison,
    lent: &mut Lent,
    random: &mut Random,
) {
    if random.one_in(2) {
        for _ in 0..4 {
            if let Some(row) = division::represent(parts, limit_element(parts, random)) {
                lent.first = row;
                comparison.call(Call::Value, lent);
            }
        }
        return;
    }
    let passes = |row: &[u8]| matches!(reference::value(&lent.table, row), Answer::Facts(_));
    let mut row = Vec::new();
    while row.len() < 256 {
        row.insert(0, random.below(parts.alphabet.len()) as u8);
        if !passes(&row) {
            break;
        }
    }
    lent.first = row;
    for digit in 0..parts.alphabet.len() {
        lent.first[0] = digit as u8;
        comparison.call(Call::Value, lent);
    }
}

/// An element with a part at ±2,147,483,647 or one beside it: any one, or beyond degree two mostly a multiple of the smallest digit, as the
/// others seldom are values of rows.
fn limit_element(parts: &Parts, random: &mut Random) -> Element {
    let limit = i64::from(i32::MAX);
    let degree = parts.degree();
    let size = random.pick(&[limit - 1, limit, limit, limit + 1, limit + 1]);
    let edge = size * random.pick(&[-1, 1]);
    if degree > 2 && !random.one_in(4) {
        let largest = |digit: &Element| digit.parts.iter().map(|part| part.abs()).max();
        let digits = parts.alphabet[1..].iter().map(|digit| Element::of(digit));
        if let Some(mut digit) = digits.min_by_key(largest) {
            let times = edge / largest(&digit).unwrap_or(1).max(1);
            digit.parts.iter_mut().for_each(|part| *part *= times);
            return digit;
        }
    }
    let mut element = Element::zero(degree);
    let (at, also) = (random.below(degree), random.below(degree));
    element.parts[also] = match random.below(3) {
        0 => 0,
        1 => random.between(-limit, limit),
        _ => -edge,
    };
    element.parts[at] = edge;
    element
}

/// Midpoints of small elements and of ones at the ends of 32 bits.
pub fn midpoints(comparison: &mut Comparison, random: &mut Random) {
    let mut part = || match random.below(4) {
        0 => random.pick(&[i32::MIN, i32::MIN + 1, -1, 0, 1, i32::MAX - 1, i32::MAX]),
        1 => random.between(-5, 5) as i32,
        _ => random.next() as i32,
    };
    let mut element = || -> Passed { std::array::from_fn(|_| part()) };
    let (x, y) = (element(), element());
    let mut lent = Lent {
        answer: answer_array(random),
        ..Lent::default()
    };
    comparison.call(Call::Midpoint { x, y }, &mut lent);
}
