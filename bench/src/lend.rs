//! The rows and buffers that the timed calls are given.

use reference::{Answer, Parts};

use crate::interface::{Call, Lent, ANSWER_WORDS};
use crate::random::Random;

/// The edits of a timed list.
const EDITS: usize = 64;

/// A table's buffers with random rows of n digits. With a table that rule 14 refuses, the second row is zero, so that sums of
/// weights zero stay in the alphabet.
pub fn rows(parts: &Parts, accepted: bool, length: usize) -> Lent {
    let mut random = Random::new(length as u64);
    let digits = parts.alphabet.len();
    let mut row = || -> Vec<u8> { (0..length).map(|_| random.below(digits) as u8).collect() };
    let (first, second) = (row(), row());
    Lent {
        table: parts.write(),
        first,
        second: if accepted { second } else { vec![0; length] },
        sum: vec![0; length + 8],
        answer: vec![0; ANSWER_WORDS],
        ..Lent::default()
    }
}

/// The same for the value call: zeros but for the lowest digits, so that no part leaves 32 bits and every place is gone through.
pub fn value_row(parts: &Parts, length: usize) -> Lent {
    let mut lent = rows(parts, true, length);
    // A base of small modulus can have more digits before 28.
    let beta = &parts.base[parts.degree()..];
    let small = beta.iter().all(|part| part.abs() <= 3);
    let digits = if small { 12 } else { 4 };
    lent.first
        .iter_mut()
        .skip(digits)
        .for_each(|digit| *digit = 0);
    lent
}

/// Subtraction takes these rows: rule 42 has nothing against the table.
pub fn subtracts(lent: &Lent) -> bool {
    let mut difference = lent.sum.clone();
    let answer = reference::subtract(&lent.table, &lent.first, &lent.second, &mut difference);
    matches!(answer, Answer::Facts(_))
}

/// Edits that are taken, each of another place.
pub fn edits(parts: &Parts, accepted: bool, length: usize) -> Vec<Call> {
    let mut random = Random::new(5);
    let mut edit = || Call::Edit {
        row: if accepted { random.below(2) as u64 } else { 0 },
        place: random.below(length) as u64,
        digit: random.below(parts.alphabet.len()) as u64,
    };
    (0..EDITS).map(|_| edit()).collect()
}
