//! Mistakes in the edit that make the order of edits matter, and laws of orders that demand too much (job 10).

use std::cell::RefCell;
use std::ops::RangeInclusive;

use reference::Asked;

use super::{depth, Mistake};
use crate::interface::{Call, Calls, Lent, FACTS, FAULT};
use crate::model::Model;
use crate::orders::WRONG_LAWS;

/// What is wrong with the edit.
#[derive(Clone, Copy, Debug, PartialEq, Eq)]
pub enum Slip {
    /// The sum's place p + h isn't renewed.
    TopKept,
    /// The sum is renewed from the rows as they were before the edit.
    RowsBefore,
    /// Renewing ends at the first place that comes out as it was.
    EndsEarly,
    /// The whole sum is renewed and counted.
    WholeRenewed,
    /// The digit is stored in both rows.
    BothRows,
    /// An edit that 24 or 25 refuses is stored all the same, in the second row or at the top place.
    StoredInSecond,
    StoredAtTop,
    /// An edit that 26 refuses stores zero, and the sum stays as it was.
    ZeroStored,
    /// The sum is renewed from the other row as the edit before was lent it.
    OlderRow,
    /// The sum's other places become what the edit before was lent.
    OlderSum,
    /// The sum is compared with what the edit before was lent, so that what that one changed counts again.
    CountedFromOlder,
    /// The edit before has a part in the count, and in the reach.
    CountGoesOn,
    ReachGoesOn,
    /// An edit after one of the other row is refused; one after a refused one isn't made.
    OtherRowRefused,
    LostAfterRefused,
}

/// The mistakes of this file.
pub fn mistakes() -> Vec<Mistake> {
    use Slip::*;
    let slips = [
        TopKept,
        RowsBefore,
        EndsEarly,
        WholeRenewed,
        BothRows,
        StoredInSecond,
        StoredAtTop,
        ZeroStored,
        OlderRow,
        OlderSum,
        CountedFromOlder,
        CountGoesOn,
        ReachGoesOn,
        OtherRowRefused,
        LostAfterRefused,
    ];
    let mut all = slips.map(Mistake::Order).to_vec();
    all.extend(WRONG_LAWS.map(Mistake::WrongLaw));
    all
}

/// What an implementation may remember of its last edit: its row, the buffers as lent, and what was returned and told.
pub struct Last {
    row: u64,
    lent: Lent,
    returned: u64,
    told: Vec<i64>,
}

/// An edit, the buffers as lent to it, and the edit before it where that was of rows as long and by the same table.
struct Edit<'a> {
    asked: Asked,
    before: &'a Lent,
    last: Option<Last>,
}

/// A call of an implementation with the slip.
pub fn call(slip: Slip, last: &RefCell<Option<Last>>, call: &Call, lent: &mut Lent) -> u64 {
    let before = lent.clone();
    let returned = Model.call(call, lent);
    let Call::Edit { row, place, digit } = *call else {
        return returned;
    };
    let last = last.replace(Some(Last {
        row,
        lent: before.clone(),
        returned,
        told: lent.answer.clone(),
    }));
    let lengths = |lent: &Lent| [&lent.first, &lent.second, &lent.sum].map(Vec::len);
    let goes_on =
        |last: &Last| last.lent.table == before.table && lengths(&last.lent) == lengths(&before);
    let edit = Edit {
        asked: (row, place, digit),
        before: &before,
        last: last.filter(goes_on),
    };
    match (returned, &edit.last) {
        (FAULT, _) => edit.store_refused(slip, lent),
        (FACTS, Some(last)) if edit.is_refused_after(slip, last) => {
            lent.clone_from(&before);
            lent.answer[..3].copy_from_slice(&[3, 24, 0]);
            return FAULT;
        }
        (FACTS, Some(last)) => edit.spoil_after(slip, last, lent),
        _ => (),
    }
    if returned == FACTS {
        edit.spoil(slip, lent);
    }
    returned
}

impl Edit<'_> {
    /// The places of the sum that the edit renews.
    fn places(&self) -> RangeInclusive<usize> {
        let place = self.asked.1 as usize;
        place..=place + depth(&self.before.table) as usize
    }

    /// Spoils an edit that is taken.
    fn spoil(&self, slip: Slip, lent: &mut Lent) {
        let top = *self.places().end();
        match slip {
            Slip::TopKept => self.keep(top..=top, lent),
            Slip::EndsEarly => {
                let as_it_was = |place: &usize| lent.sum[*place] == self.before.sum[*place];
                if let Some(place) = self.places().find(as_it_was) {
                    self.keep(place..=top, lent);
                }
            }
            Slip::RowsBefore => self.renew(self.before, self.places(), lent),
            Slip::WholeRenewed => {
                let above = lent.first.len() + depth(&lent.table) as usize;
                self.renew(&lent.clone(), 0..=above - 1, lent);
            }
            Slip::BothRows => {
                let (row, place, digit) = self.asked;
                Model.call(&Call::edit((1 - row, place, digit)), lent);
                self.count(lent);
            }
            _ => (),
        }
    }

    /// An edit that is taken, and refused because of the one before.
    fn is_refused_after(&self, slip: Slip, last: &Last) -> bool {
        slip == Slip::OtherRowRefused && last.returned == FACTS && last.row != self.asked.0
    }

    /// Spoils an edit that is taken because of the one before.
    fn spoil_after(&self, slip: Slip, last: &Last, lent: &mut Lent) {
        let was_taken = last.returned == FACTS;
        match slip {
            Slip::OlderRow => {
                let mut older = lent.clone();
                match self.asked.0 {
                    0 => older.second.clone_from(&last.lent.second),
                    _ => older.first.clone_from(&last.lent.first),
                }
                self.renew(&older, self.places(), lent);
            }
            Slip::OlderSum => {
                let renewed = lent.sum[self.places()].to_vec();
                lent.sum.clone_from(&last.lent.sum);
                lent.sum[self.places()].copy_from_slice(&renewed);
            }
            Slip::CountedFromOlder => {
                let sums = [&lent.sum, &last.lent.sum].map(|sum| &sum[self.places()]);
                lent.answer[1] = differing(sums);
            }
            Slip::CountGoesOn if was_taken => lent.answer[1] += last.told[1],
            Slip::ReachGoesOn if was_taken => lent.answer[2] = lent.answer[2].max(last.told[2]),
            Slip::LostAfterRefused if !was_taken => {
                let reach = lent.answer[2];
                lent.clone_from(self.before);
                lent.answer[..3].copy_from_slice(&[0, 0, reach]);
            }
            _ => (),
        }
    }

    /// Stores something in spite of a refusal, which is told as it should be.
    fn store_refused(&self, slip: Slip, lent: &mut Lent) {
        let (row, place, digit) = self.asked;
        let top = (lent.first.len() as u64).saturating_sub(1);
        let instead = match (slip, lent.answer[1]) {
            (Slip::StoredInSecond, 24) => (1, place, digit),
            (Slip::StoredAtTop, 25) => (row, top, digit),
            (Slip::ZeroStored, 26) => (row, place, 0),
            _ => return,
        };
        let mut stored = lent.clone();
        if Model.call(&Call::edit(instead), &mut stored) == FACTS {
            [lent.first, lent.second] = [stored.first, stored.second];
            if slip != Slip::ZeroStored {
                lent.sum = stored.sum;
            }
        }
    }

    /// Some places of the sum keep what they had.
    fn keep(&self, places: RangeInclusive<usize>, lent: &mut Lent) {
        lent.sum[places.clone()].copy_from_slice(&self.before.sum[places]);
        self.count(lent);
    }

    /// Some places of the sum get the digits of an addition of other rows.
    fn renew(&self, rows: &Lent, places: RangeInclusive<usize>, lent: &mut Lent) {
        let mut added = rows.clone();
        Model.call(&Call::Add, &mut added);
        lent.sum[places.clone()].copy_from_slice(&added.sum[places]);
        self.count(lent);
    }

    /// The count of what is left as the sum.
    fn count(&self, lent: &mut Lent) {
        lent.answer[1] = differing([&lent.sum, &self.before.sum]);
    }
}

/// How many bytes differ.
fn differing([one, other]: [&[u8]; 2]) -> i64 {
    let both = one.iter().zip(other);
    both.filter(|(x, y)| x != y).count() as i64
}
