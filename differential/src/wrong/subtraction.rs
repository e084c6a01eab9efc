//! Mistakes in subtraction and in the rule of the input digits (job 2).

use reference::conversion::converted_row;
use reference::{Element, Operation};

use super::{Mistake, Wrong};
use crate::further::{self, Digits};
use crate::interface::{Call, Calls, Lent};
use crate::looks::Looks;
use crate::model::Model;

/// The mistakes of this file.
pub fn mistakes() -> Vec<Mistake> {
    use Mistake::*;
    let mut all = vec![
        SecondMinusFirst,
        SubtractAdds,
        SubtractRefuses,
        DifferenceCleared,
        UnlistedSecondIndex,
        UnlistedByColumn,
        UnlistedReversed,
        UnlistedBeforeRoom,
        UnlistedLetThrough,
        UnlistedInRowsOnly,
        FurtherRefused,
        MissingSumPasses,
        SumsCounted,
        MissingSumFirst,
        PairsOfSumsOnly,
    ];
    all.extend(
        [
            "check", "bad_row", "forecast", "add", "edit", "run", "value",
        ]
        .map(UnlistedSaidBy),
    );
    all.extend([20, 21, 22, 23, 27].map(SubtractPlaceOff));
    all
}

/// The pairs of a file's alphabet that 42 speaks of.
fn unlisted(file: &[u8]) -> Vec<(usize, usize)> {
    Digits::of(file).map_or(Vec::new(), |digits| digits.unlisted_differences())
}

/// The words of a fault.
fn tell(lent: &mut Lent, group: i64, number: i64, place: usize) {
    lent.answer[..3].copy_from_slice(&[group, number, place as i64]);
}

impl Wrong {
    /// A subtraction that was taken.
    pub(super) fn spoil_subtract(&self, before: &Lent, lent: &mut Lent) {
        let written = lent.answer[1] as usize;
        match self.mistake {
            Mistake::SecondMinusFirst => {
                *lent = before.clone();
                std::mem::swap(&mut lent.first, &mut lent.second);
                Model.call(&Call::Subtract, lent);
                std::mem::swap(&mut lent.first, &mut lent.second);
            }
            Mistake::SubtractAdds => {
                *lent = before.clone();
                Model.call(&Call::Add, lent);
            }
            Mistake::SubtractRefuses => tell(lent, 1, 27, 0),
            Mistake::DifferenceCleared => lent.sum[written..].fill(0),
            _ => (),
        }
    }

    /// A subtraction that was refused.
    pub(super) fn spoil_subtract_fault(&self, number: i64, before: &Lent, lent: &mut Lent) {
        match (self.mistake, number) {
            (Mistake::SubtractPlaceOff(wanted), _) if number == wanted => lent.answer[2] += 1,
            (
                Mistake::UnlistedSecondIndex
                | Mistake::UnlistedByColumn
                | Mistake::UnlistedReversed,
                42,
            ) => self.misplace(lent),
            (Mistake::UnlistedBeforeRoom, 23) => {
                let mut roomy = before.clone();
                roomy.sum.resize(before.first.len() + 8, 0);
                Model.call(&Call::Subtract, &mut roomy);
                if roomy.answer[1] == 42 {
                    lent.answer = roomy.answer;
                }
            }
            (Mistake::UnlistedLetThrough | Mistake::UnlistedInRowsOnly, 42) => self.convert(lent),
            _ => (),
        }
    }

    /// Another index as the place of 42.
    fn misplace(&self, lent: &mut Lent) {
        let pairs = unlisted(&lent.table);
        let by_row = pairs.iter().min();
        let by_column = pairs.iter().min_by_key(|(i, k)| (k, i));
        let place = match self.mistake {
            Mistake::UnlistedSecondIndex => by_row.map(|(_, k)| *k),
            Mistake::UnlistedByColumn => by_column.map(|(i, _)| *i),
            _ => by_column.map(|(_, k)| *k),
        };
        lent.answer[2] = place.map_or(-1, |place| place as i64);
    }

    /// Subtraction without 42, as far as the differences of the rows are input digits.
    fn convert(&self, lent: &mut Lent) {
        let Ok(table) = reference::table::read(&lent.table) else {
            return;
        };
        let digit = |index: &u8| &table.alphabet[usize::from(*index)];
        let differences: Vec<Element> = lent
            .first
            .iter()
            .zip(&lent.second)
            .map(|(x, y)| digit(x) - digit(y))
            .collect();
        let unlisted = |difference: &Element| !table.inputs.contains(difference);
        if let Some(place) = differences.iter().position(unlisted) {
            if self.mistake == Mistake::UnlistedLetThrough {
                tell(lent, 1, 27, place);
            }
            return;
        }
        let places = 0..lent.first.len() + table.depth;
        let row = converted_row(
            Operation::Difference,
            &table,
            &lent.first,
            &lent.second,
            places,
        );
        match row {
            Ok(digits) => {
                let looks = Looks::of(&Call::Subtract, lent);
                let reach = looks.map_or(0, |looks| looks.longest(looks.places(&Call::Subtract)));
                lent.sum[..digits.len()].copy_from_slice(&digits);
                lent.answer[..3].copy_from_slice(&[0, digits.len() as i64, reach]);
            }
            Err(fault) => tell(lent, 1, fault.number.into(), fault.place),
        }
    }

    /// Mistakes about a file's digits, which any call with a table may meet.
    pub(super) fn spoil_digits(&self, call: &Call, before: &Lent, lent: &mut Lent) {
        let (facts, number) = (lent.answer[0] == 0, lent.answer[1]);
        let check = *call == Call::Check;
        match self.mistake {
            Mistake::UnlistedSaidBy(name) if facts && name == call.name() => {
                if let Some((first, _)) = unlisted(&before.table).first() {
                    *lent = before.clone();
                    tell(lent, 1, 42, *first);
                }
            }
            Mistake::FurtherRefused if facts || !(1..=7).contains(&number) => {
                let digits = Digits::of(&before.table);
                if let Some(record) = digits.and_then(|digits| digits.strict_offender()) {
                    *lent = before.clone();
                    tell(lent, 1, 8, record);
                }
            }
            Mistake::PairsOfSumsOnly if check && !facts && number == 14 => {
                if further::only_further_pairs_fail(&lent.table) {
                    lent.answer[0] = 0;
                }
            }
            _ if check && !facts && number == 8 => self.spoil_sums(lent),
            _ => (),
        }
    }

    /// A file that rule 8 refuses.
    fn spoil_sums(&self, lent: &mut Lent) {
        let Some(digits) = Digits::of(&lent.table) else {
            return;
        };
        let count = digits.inputs.len();
        let missing = lent.answer[2] as usize == count;
        match self.mistake {
            Mistake::MissingSumPasses if missing => lent.answer[0] = 0,
            Mistake::SumsCounted if missing && count >= digits.sums() => lent.answer[0] = 0,
            Mistake::MissingSumFirst if digits.misses_a_sum() => lent.answer[2] = count as i64,
            _ => (),
        }
    }
}
