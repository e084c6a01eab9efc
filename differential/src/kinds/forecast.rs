//! Kinds of forecasts (job 13): numbers of digits about the limit, and tables whose words fit in every way.

use std::collections::HashSet;

use reference::table::{self, Table};

use super::Kind;
use crate::interface::Lent;
use crate::tally::Outcome;

/// Of a forecast for rows of so many digits.
pub fn met(digits: u64, outcome: Outcome, lent: &Lent) -> Vec<(bool, Kind)> {
    match outcome {
        Outcome::Facts => told(digits, lent),
        Outcome::Fault(20) => vec![
            (digits == 257, Kind::ForecastJustOver),
            (digits > u64::from(u32::MAX), Kind::ForecastFarOver),
        ],
        Outcome::Fault(_) => vec![(digits > 256, Kind::TableFaultBeforeDigits)],
        Outcome::TooShort => Vec::new(),
    }
}

/// Of one that gives facts.
fn told(digits: u64, lent: &Lent) -> Vec<(bool, Kind)> {
    let Ok(table) = table::read(&lent.table) else {
        return Vec::new();
    };
    let (leaves, pairs) = (table.leaves.len() as i64, lent.answer[1]);
    vec![
        (digits == 0, Kind::ForecastOfNothing),
        (digits == 256, Kind::ForecastOfMost),
        (pairs < leaves * leaves, Kind::PairsUnderSquare),
        (pairs > i64::from(u16::MAX), Kind::ManyPairs),
        (leaves > 3_000, Kind::ForecastOfManyLeaves),
        (goes_beyond(&table), Kind::TailBeyondWord),
    ]
}

/// Some upper leaf's tail goes on where the word of a lower leaf that fits has ended.
fn goes_beyond(table: &Table) -> bool {
    let words: HashSet<&[u8]> = table.leaves.iter().map(|leaf| &leaf.word[..]).collect();
    let beyond = |tail: &[u8]| (1..tail.len()).any(|length| words.contains(&tail[..length]));
    words.iter().any(|word| beyond(&word[1..]))
}
