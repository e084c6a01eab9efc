//! Kinds of bad rows (job 5): how the two leaves stand among the others, and how their words make the string.

use reference::table::{self, Table};

use super::Kind;
use crate::interface::{Lent, STRING_BYTES};
use crate::pairs;
use crate::tally::Outcome;

/// All pairs are looked at in tables of so many leaves.
const FEW_LEAVES: usize = 60;

/// Of a call, from its outcome and the buffers that it left.
pub fn met(outcome: Outcome, lent: &Lent) -> Vec<(bool, Kind)> {
    let lent_bytes = lent.sum.len();
    match outcome {
        Outcome::Facts if lent.answer[1] == 0 => vec![(true, Kind::NothingToShow)],
        Outcome::Facts => {
            let mut kinds = shown(lent);
            kinds.push((lent_bytes > STRING_BYTES, Kind::LongString));
            kinds
        }
        Outcome::Fault(_) => vec![(true, Kind::BadRowRefused)],
        Outcome::TooShort => vec![(lent_bytes < STRING_BYTES, Kind::ShortString)],
    }
}

/// Of a row that is shown.
fn shown(lent: &Lent) -> Vec<(bool, Kind)> {
    let Ok(table) = table::read(&lent.table) else {
        return Vec::new();
    };
    let [bytes, upper, lower] = [1, 2, 3].map(|word| lent.answer[word] as usize);
    let tail = table.leaves[upper].word.len() - 1;
    let word = table.leaves[lower].word.len();
    let digit = &lent.answer[4..4 + lent.degree()];
    let mut kinds = vec![
        (true, Kind::RowShown),
        (tail > word, Kind::TailLonger),
        (tail == word, Kind::TailAsLong),
        (tail < word, Kind::TailShorter),
        (bytes == 2, Kind::ShortestString),
        (bytes == STRING_BYTES, Kind::LongestString),
        (upper == lower, Kind::LeafWithItself),
        (
            digit.iter().any(|part| i16::try_from(*part).is_err()),
            Kind::WideDigit,
        ),
        (table.leaves.len() > 3_000, Kind::RowOfManyLeaves),
    ];
    if table.leaves.len() <= FEW_LEAVES {
        kinds.extend(among_others(&table, upper, lower));
    }
    kinds
}

/// How the pair stands among the others.
fn among_others(table: &Table, upper: usize, lower: usize) -> Vec<(bool, Kind)> {
    let count = table.leaves.len();
    let fits = |u: usize, l: usize| pairs::fit(table, u, l);
    let fails = |u: usize, l: usize| !table.alphabet.contains(&pairs::digit(table, u, l));
    let mut later = (upper + 1..count).flat_map(|u| (0..count).map(move |l| (u, l)));
    let mut earlier = (upper + 1..count).flat_map(|u| (0..lower).map(move |l| (u, l)));
    vec![
        ((0..lower).any(|l| fits(upper, l)), Kind::FittingLowerBefore),
        (
            (0..lower).any(|l| fails(upper, l)),
            Kind::FailingLowerBefore,
        ),
        (
            (lower + 1..count).any(|l| fits(upper, l) && fails(upper, l)),
            Kind::LaterLower,
        ),
        (
            later.any(|(u, l)| fits(u, l) && fails(u, l)),
            Kind::LaterUpper,
        ),
        (
            earlier.any(|(u, l)| fits(u, l) && fails(u, l)),
            Kind::LowerOfLaterUpper,
        ),
    ]
}
