//! Rows, buffers and answer arrays, good ones and ones with a fault.

use reference::Parts;

use crate::codes::depth;
use crate::interface::Lent;
use crate::random::Random;

/// Rows of a random length with a sum buffer that is mostly long enough, and a whole answer array.
pub fn lend(parts: &Parts, table: Vec<u8>, random: &mut Random) -> Lent {
    let length = row_length(random);
    let whole = length + depth(parts);
    let room = match random.below(12) {
        0 => whole.saturating_sub(1),
        1 => random.below(whole + 1),
        2..=5 => whole + 1 + random.below(20),
        _ => whole,
    };
    lend_rows(parts, table, length, room, random)
}

/// Rows of some length with so many bytes for the sum, which hold anything, and a whole answer array.
pub fn lend_rows(
    parts: &Parts,
    table: Vec<u8>,
    length: usize,
    room: usize,
    random: &mut Random,
) -> Lent {
    let first = row(parts, length, random);
    let second = row(parts, length, random);
    Lent {
        table,
        first,
        second,
        sum: random.bytes(room),
        answer: answer_array(random),
        ..Lent::default()
    }
}

pub fn row_length(random: &mut Random) -> usize {
    match random.below(40) {
        0 => 0,
        1 => 1,
        2 => 255,
        3 => 256,
        4 => 257,
        5 | 6 => random.below(257),
        _ => random.below(24),
    }
}

/// A row of alphabet indexes; some are all zero or nearly so, for tables that convert little else.
pub fn row(parts: &Parts, length: usize, random: &mut Random) -> Vec<u8> {
    let rarely = random.pick(&[1, 1, 1, 1, 3, 20, 1_000]);
    let digits = parts.alphabet.len();
    let digit = |random: &mut Random| match random.one_in(rarely) {
        true => random.below(digits) as u8,
        false => 0,
    };
    (0..length).map(|_| digit(random)).collect()
}

/// At least eight words, filled with anything, so that words that must be kept are seen to be.
pub fn answer_array(random: &mut Random) -> Vec<i64> {
    let words = if random.one_in(4) {
        8 + random.below(5)
    } else {
        8
    };
    (0..words).map(|_| random.next() as i64).collect()
}

/// A fault of whoever lends the rows: 20 to 23.
pub fn spoil_rows(parts: &Parts, lent: &mut Lent, random: &mut Random) {
    let digits = parts.alphabet.len() as u8;
    let (row, other) = match random.one_in(2) {
        true => (&mut lent.first, &mut lent.second),
        false => (&mut lent.second, &mut lent.first),
    };
    match random.below(6) {
        0 => row.resize(random.pick(&[0, 1, 255, 256, 257, 300]), 0),
        1 => {
            let length = random.pick(&[257, 258, 512]);
            row.resize(length, 0);
            other.resize(length, 0);
        }
        2..=4 if !row.is_empty() => {
            let at = random.below(row.len());
            row[at] = random.pick(&[digits, digits + 1, 128, 255]);
        }
        _ => {
            let shorter = lent.sum.len().saturating_sub(1 + random.below(4));
            lent.sum.truncate(shorter);
        }
    }
}
