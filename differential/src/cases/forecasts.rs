//! Forecasts (job 13) by tables of every kind, beside the check's pairs and in front of the sums that they speak of.

use super::lending::lend;
use crate::codes;
use crate::damage;
use crate::draft::Draft;
use crate::interface::{Call, Lent};
use crate::kinds::Kind;
use crate::pool::{self, Pool};
use crate::random::Random;
use crate::tally::{Comparison, Outcome};

/// Most of these tables are small, since the reference tries every two leaves.
pub const FEW_LEAVES: usize = 400;

/// Forecasts by one table: an accepted one, one that rule 14 refuses, a damaged one; with the check in front of one of them.
pub fn forecasts(pool: &Pool, comparison: &mut Comparison, random: &mut Random) {
    let parts = match random.below(4) {
        0 => pool.single_pairs.pick(random).clone(),
        1 => {
            let leaves = random.below(FEW_LEAVES);
            codes::random_code(pool::random_degree(random), leaves, random)
        }
        _ => pool.accepted(random),
    };
    let mut draft = Draft::new(&parts);
    if random.one_in(6) {
        damage::damage(&mut draft, random.pick(&damage::NUMBERS), random);
    }
    let lent = lend(&parts, draft.write(), random);
    checked(comparison, &lent, random);
    let more = match parts.leaves.len() {
        0..=FEW_LEAVES => random.below(4),
        _ => 0,
    };
    for _ in 0..more {
        forecast(comparison, &lent, random);
    }
}

/// A forecast in buffers of its own: its pairs and bytes, where it gives them.
fn told(comparison: &mut Comparison, lent: &Lent, call: Call) -> Option<[i64; 2]> {
    let mut apart = lent.clone();
    let outcome = comparison.call(call, &mut apart);
    (outcome == Outcome::Facts).then(|| [apart.answer[1], apart.answer[2]])
}

/// A forecast with any number of digits.
pub fn forecast(comparison: &mut Comparison, lent: &Lent, random: &mut Random) {
    told(comparison, lent, any(random));
}

/// The check and a forecast, each in buffers of its own: the pairs of an accepted table are the same, and 14 has no part in a forecast.
pub fn checked(comparison: &mut Comparison, lent: &Lent, random: &mut Random) {
    let mut apart = lent.clone();
    let outcome = comparison.call(Call::Check, &mut apart);
    let Some([pairs, _]) = told(comparison, lent, any(random)) else {
        return;
    };
    match outcome {
        Outcome::Facts => {
            comparison.count_kind(Kind::PairsOfCheckAndForecast);
            let checked = apart.answer[4];
            comparison.law(pairs == checked, || {
                format!("the check tells {checked} pairs and the forecast {pairs}: {lent:?}")
            });
        }
        Outcome::Fault(14) => comparison.count_kind(Kind::ForecastInSpiteOf14),
        _ => (),
    }
}

/// A forecast for rows as they are lent: the bytes, where it gives facts.
pub fn of_rows(comparison: &mut Comparison, lent: &Lent) -> Option<i64> {
    let digits = lent.first.len() as u64;
    told(comparison, lent, Call::Forecast { digits }).map(|[_, bytes]| bytes)
}

/// An addition was taken: it has written as many bytes as were forecast.
pub fn came_true(comparison: &mut Comparison, bytes: i64, lent: &Lent) {
    comparison.count_kind(Kind::SumAsForecast);
    comparison.law(lent.answer[1] == bytes, || {
        format!("{bytes} bytes were forecast: {lent:?}")
    });
}

/// A forecast for rows that are about as long as they may be, for short ones, and for far too long ones, of which some are right in their
/// low bits.
pub fn any(random: &mut Random) -> Call {
    let short = random.below(257) as u64;
    let digits = match random.below(12) {
        0 => random.pick(&[0, 1, 255]),
        1 => 256,
        2 => 257,
        3 => random.pick(&[258, 300, 512, 65_535, 65_536]),
        4 => random.pick(&[1 << 8, 1 << 16, 1 << 31, 1 << 32, 1 << 63]) + short,
        5 => random.pick(&[u64::MAX, u64::MAX - 1, u64::MAX - 7, i64::MAX as u64]),
        6 => random.next(),
        _ => short,
    };
    Call::Forecast { digits }
}
