//! Implementations with one mistake each, to see that the comparison finds it.

mod bad_row;
mod carried;
mod degrees;
mod forecast;
mod midpoint;
mod orders;
mod reach;
mod subtraction;

use std::cell::{Cell, RefCell};

use reference::Element;

use crate::interface::{Call, Calls, Lent, FACTS, FAULT, TOO_SHORT};
use crate::model::Model;
use crate::orders::Law;

/// What is wrong with an implementation that is otherwise the reference.
#[derive(Clone, Copy, Debug, PartialEq, Eq)]
pub enum Mistake {
    /// The edit's count is always h + 1.
    CountAlwaysAll,
    /// The edit stores the digit but not the sum.
    EditLeavesSum,
    /// The edit works in the first call only.
    EditOnce,
    /// The edit writes nothing and reports 0.
    EditIdle,
    /// Addition says 27 before computing.
    AddRefuses,
    /// The check refuses every file.
    CheckRefuses,
    /// The check accepts every file that passes 1 to 13.
    CheckSkipsPairs,
    /// The sum is always zero.
    SumZero,
    /// Addition clears the sum buffer beyond n + h.
    SumCleared,
    /// The edit's row number, place and digit are cut to 32 bits.
    NumbersCut,
    /// The second row is judged before the first.
    SecondRowFirst,
    /// The edit renews only the sum's place p.
    EditOnePlace,
    /// The edit says 27 for any place of the sum, also below p and above p + h.
    EditJudgesAll,
    /// The runner adds and edits without the check.
    RunSkipsCheck,
    /// The runner stops at the first edit that is refused.
    RunStops,
    /// The runner tells a fault's place as its number and its number as its place.
    RunTellsPlaceFirst,
    /// The runner says as many edits as row numbers are listed.
    RunCountsRows,
    /// The value lets −2,147,483,648 pass at the last digit.
    LimitLoose,
    /// The midpoint is rounded by another rule.
    MidpointRounded(midpoint::Rounding),
    /// The midpoint's sums are taken in 32 bits.
    MidpointWraps,
    /// A part of the midpoint is always zero.
    MidpointDrops(usize),
    /// A part of the second element is taken from the first.
    MidpointTwice(usize),
    /// The answer's last word is written too.
    AnswerOverrun,
    /// A short answer array is filled as far as it reaches.
    ShortAnswerWritten,
    /// A short out buffer is filled as far as it reaches.
    ShortOutWritten,
    /// Subtraction takes the first row from the second.
    SecondMinusFirst,
    /// Subtraction adds.
    SubtractAdds,
    /// Subtraction says 27 before computing.
    SubtractRefuses,
    /// Subtraction clears the buffer beyond n + h.
    DifferenceCleared,
    /// The place of 42 is the second index of the pair.
    UnlistedSecondIndex,
    /// The place of 42 is the first index of the pair that is lowest by second index, and the second index of that.
    UnlistedByColumn,
    UnlistedReversed,
    /// 42 is judged before 23.
    UnlistedBeforeRoom,
    /// 42 is left out: the rows are converted, and 27 is said where a difference isn't an input digit.
    UnlistedLetThrough,
    /// 42 is judged over the digits that the rows hold, and not over the whole alphabet.
    UnlistedInRowsOnly,
    /// A call other than subtraction says 42.
    UnlistedSaidBy(&'static str),
    /// A record that is no sum is still refused with 8.
    FurtherRefused,
    /// A missing sum is let through by the check.
    MissingSumPasses,
    /// The check only counts: a missing sum is let through where there are as many records as sums.
    SumsCounted,
    /// A missing sum is told before a record that isn't zero or repeats another.
    MissingSumFirst,
    /// Rule 14 looks at the leaves of sums only.
    PairsOfSumsOnly,
    /// The reach of a call is told by another rule.
    Reach(&'static str, reach::Told),
    /// A refused call writes a word for its reach.
    FaultTellsReach(&'static str),
    /// The runner tells its addition's reach in word 2, or its edits' in the place of their counts.
    RunTellsReach,
    RunCountsReach,
    /// Something is done wrong with files of one degree.
    AtDegree(usize, degrees::Slip),
    /// The pairs of a call are counted by another rule.
    Pairs(&'static str, forecast::Counted),
    /// Something else is wrong with the forecast.
    Forecast(forecast::Slip),
    /// Something is wrong with a bad row.
    BadRow(bad_row::Slip),
    /// A carried table is formed wrongly.
    Carried(&'static str, carried::Formed),
    /// Addition or subtraction breaks the law of negated rows.
    Negative(&'static str, carried::Negative),
    /// An edit breaks the law of orders.
    Order(orders::Slip),
    /// Nothing is wrong but the law of orders itself, which demands too much.
    WrongLaw(Law),
    /// The place of one refusal number is one too high in subtraction.
    SubtractPlaceOff(i64),
    /// The place of one refusal number is one too high.
    PlaceOff(i64),
    /// One refusal number is told as the next.
    NumberOff(i64),
}

impl Mistake {
    /// A law has to find it by the implementation's own answers, without the reference's.
    pub fn breaks_a_law(self) -> bool {
        matches!(
            self,
            Mistake::Negative(..) | Mistake::Order(_) | Mistake::WrongLaw(_)
        )
    }

    /// The law of orders that is demanded.
    pub fn law_of_orders(self) -> Law {
        match self {
            Mistake::WrongLaw(law) => law,
            _ => Law::Right,
        }
    }
}

/// The refusal numbers of document 01, and 42 of job 2.
pub const NUMBERS: [i64; 24] = [
    1, 2, 3, 4, 5, 6, 7, 8, 9, 10, 11, 12, 13, 14, 20, 21, 22, 23, 24, 25, 26, 27, 28, 42,
];

/// Every mistake that is tried.
pub fn mistakes() -> Vec<Mistake> {
    use Mistake::*;
    let mut all = vec![
        CountAlwaysAll,
        EditLeavesSum,
        EditOnce,
        EditIdle,
        AddRefuses,
        CheckRefuses,
        CheckSkipsPairs,
        SumZero,
        SumCleared,
        NumbersCut,
        SecondRowFirst,
        EditOnePlace,
        EditJudgesAll,
        RunSkipsCheck,
        RunStops,
        RunTellsPlaceFirst,
        RunCountsRows,
        LimitLoose,
        AnswerOverrun,
        ShortAnswerWritten,
        ShortOutWritten,
    ];
    all.extend(midpoint::mistakes());
    all.extend(subtraction::mistakes());
    all.extend(reach::mistakes());
    all.extend(degrees::mistakes());
    all.extend(forecast::mistakes());
    all.extend(bad_row::mistakes());
    all.extend(carried::mistakes());
    all.extend(orders::mistakes());
    all.extend(NUMBERS.map(PlaceOff));
    all.extend(NUMBERS.map(NumberOff));
    all
}

/// The reference with a mistake in it.
pub struct Wrong {
    pub mistake: Mistake,
    edited: Cell<bool>,
    last: RefCell<Option<orders::Last>>,
}

impl Wrong {
    pub fn new(mistake: Mistake) -> Self {
        Wrong {
            mistake,
            edited: Cell::new(false),
            last: RefCell::new(None),
        }
    }
}

impl Calls for Wrong {
    fn call(&self, call: &Call, lent: &mut Lent) -> u64 {
        if let Mistake::AtDegree(degree, slip) = self.mistake {
            return degrees::call(degree, slip, call, lent);
        }
        if let Mistake::Forecast(slip) = self.mistake {
            return forecast::call(slip, call, lent);
        }
        if let Mistake::BadRow(slip) = self.mistake {
            return bad_row::call(slip, call, lent);
        }
        if let Mistake::Carried(name, slip) = self.mistake {
            return carried::call(name, slip, call, lent);
        }
        if let Mistake::Negative(name, slip) = self.mistake {
            return carried::negative(name, slip, call, lent);
        }
        if let Mistake::Order(slip) = self.mistake {
            return orders::call(slip, &self.last, call, lent);
        }
        let before = lent.clone();
        let returned = Model.call(&self.asked(call), lent);
        match (call, returned) {
            (Call::Check | Call::Forecast { .. }, FACTS) => self.spoil_pairs(call, &before, lent),
            (Call::Add, FACTS) => self.spoil_add(lent),
            (Call::Subtract, FACTS) => self.spoil_subtract(&before, lent),
            (Call::Edit { .. }, FACTS) => self.spoil_edit(call, &before, lent),
            (Call::Run, FACTS) => self.spoil_run(&before, lent),
            (Call::Midpoint { x, y }, FACTS) => self.spoil_midpoint(x, y, lent),
            (_, FAULT) => self.spoil_fault(call, &before, lent),
            _ => (),
        }
        self.spoil_any(call, returned, lent);
        self.spoil_reach(call, returned, &before, lent);
        if call.takes_table() && returned != TOO_SHORT {
            self.spoil_digits(call, &before, lent);
        }
        returned
    }
}

/// The depth of a table that passes 1 to 13.
fn depth(table: &[u8]) -> i64 {
    reference::table::read(table).map_or(0, |table| table.depth as i64)
}

impl Wrong {
    /// The call as a mistaken implementation would take it.
    fn asked(&self, call: &Call) -> Call {
        match *call {
            Call::Edit { row, place, digit } if self.mistake == Mistake::NumbersCut => Call::Edit {
                row: row & 0xffff_ffff,
                place: place & 0xffff_ffff,
                digit: digit & 0xffff_ffff,
            },
            other => other,
        }
    }

    fn spoil_pairs(&self, call: &Call, before: &Lent, lent: &mut Lent) {
        match self.mistake {
            Mistake::Pairs(name, counted) if name == call.name() => {
                forecast::count(counted, call, before, lent)
            }
            _ => (),
        }
    }

    fn spoil_add(&self, lent: &mut Lent) {
        let written = lent.answer[1] as usize;
        match self.mistake {
            Mistake::AddRefuses => lent.answer[..3].copy_from_slice(&[1, 27, 0]),
            Mistake::SumZero => lent.sum[..written].fill(0),
            Mistake::SumCleared => lent.sum[written..].fill(0),
            _ => (),
        }
    }

    fn spoil_edit(&self, call: &Call, before: &Lent, lent: &mut Lent) {
        let Call::Edit { place, .. } = *call else {
            return;
        };
        match self.mistake {
            Mistake::CountAlwaysAll => lent.answer[1] = depth(&lent.table) + 1,
            Mistake::EditLeavesSum => lent.sum.clone_from(&before.sum),
            Mistake::EditOnePlace => {
                let above = place as usize + 1;
                lent.sum[above..].copy_from_slice(&before.sum[above..]);
            }
            Mistake::EditJudgesAll => {
                let mut whole = lent.clone();
                if Model.call(&Call::Add, &mut whole) == FAULT {
                    *lent = before.clone();
                    lent.answer[..3].copy_from_slice(&whole.answer[..3]);
                }
            }
            Mistake::EditOnce if self.edited.get() => *lent = before.clone(),
            Mistake::EditIdle => {
                let reach = lent.answer[2];
                *lent = before.clone();
                lent.answer[..3].copy_from_slice(&[0, 0, reach]);
            }
            _ => (),
        }
        self.edited.set(true);
    }

    fn spoil_run(&self, before: &Lent, lent: &mut Lent) {
        let ran = lent.answer[1] as usize;
        match self.mistake {
            Mistake::RunStops => {
                if let Some(first) = (0..ran).find(|k| lent.whose[*k] != 0) {
                    let mut fewer = before.clone();
                    fewer.rows.truncate(first + 1);
                    Model.call(&Call::Run, &mut fewer);
                    fewer.rows.clone_from(&lent.rows);
                    *lent = fewer;
                }
            }
            Mistake::RunTellsPlaceFirst => {
                for k in (0..ran).filter(|k| lent.whose[*k] != 0) {
                    std::mem::swap(&mut lent.numbers[k], &mut lent.values[k]);
                }
            }
            Mistake::RunCountsRows => lent.answer[1] = lent.rows.len() as i64,
            _ => (),
        }
    }

    /// Where both rows offend, the second is told of.
    fn spoil_rows(&self, call: &Call, before: &Lent, lent: &mut Lent) {
        let mut swapped = before.clone();
        std::mem::swap(&mut swapped.first, &mut swapped.second);
        Model.call(call, &mut swapped);
        if swapped.answer[1] == 21 {
            lent.answer[1..3].copy_from_slice(&[22, swapped.answer[2]]);
        }
    }

    /// A value that 28 refuses at place 0 is told if its parts fit into 32 bits.
    fn spoil_value(&self, lent: &mut Lent) {
        let (Ok(table), true) = (reference::table::read(&lent.table), lent.answer[2] == 0) else {
            return;
        };
        let digits = lent
            .first
            .iter()
            .rev()
            .map(|index| &table.alphabet[usize::from(*index)]);
        let zero = Element::zero(table.base.degree());
        let value = digits.fold(zero, |total, digit| &table.base.times(&total) + digit);
        if value.parts.iter().all(|part| i32::try_from(*part).is_ok()) {
            lent.answer[0] = 0;
            lent.answer[1..][..value.parts.len()].copy_from_slice(&value.parts);
        }
    }

    fn spoil_fault(&self, call: &Call, before: &Lent, lent: &mut Lent) {
        let number = lent.answer[1];
        match (self.mistake, call) {
            (Mistake::PlaceOff(wanted), _) if number == wanted => lent.answer[2] += 1,
            (Mistake::NumberOff(wanted), _) if number == wanted => lent.answer[1] += 1,
            (Mistake::CheckSkipsPairs, Call::Check) if number == 14 => lent.answer[0] = 0,
            (Mistake::RunSkipsCheck, Call::Run) if number == 14 => {
                Model.call(&Call::Add, lent);
            }
            (
                Mistake::SecondRowFirst,
                Call::Add | Call::Subtract | Call::Edit { .. } | Call::Run,
            ) if number == 21 => {
                self.spoil_rows(call, before, lent);
            }
            (_, Call::Subtract) => self.spoil_subtract_fault(number, before, lent),
            (Mistake::LimitLoose, Call::Value) if number == 28 => self.spoil_value(lent),
            _ => (),
        }
    }

    /// Mistakes that can't be told by facts and faults.
    fn spoil_any(&self, call: &Call, returned: u64, lent: &mut Lent) {
        match (self.mistake, call) {
            (Mistake::CheckRefuses, Call::Check) if returned == FACTS => {
                lent.answer[..3].copy_from_slice(&[1, 14, 0]);
            }
            (Mistake::AnswerOverrun, _) if returned != TOO_SHORT => {
                lent.answer.iter_mut().skip(7).for_each(|word| *word = 0);
            }
            (Mistake::ShortAnswerWritten, Call::Check) if returned == TOO_SHORT => {
                lent.answer.fill(0)
            }
            (Mistake::ShortOutWritten, Call::Tern | Call::Bin) if returned == TOO_SHORT => {
                lent.sum.fill(0)
            }
            _ => (),
        }
    }
}
