//! Mistakes in the reach (job 7).
//!
//! One isn't here because no call can tell it from the truth: addition or subtraction that looks up place −1 too, or places from n + h up.
//! All of these have the leaf of zeros, leaf 0. So has place n + h − 1, whose window begins with h zeros, and it is looked up anyway. Only
//! an edit can leave leaf 0 out.

use super::{Mistake, Wrong};
use crate::interface::{Call, Calls, Lent, FACTS, FAULT};
use crate::looks::Looks;
use crate::model::Model;

/// What is told as the reach of a call.
#[derive(Clone, Copy, Debug, PartialEq, Eq)]
pub enum Told {
    /// The word keeps its contents.
    Nothing,
    /// The reach and the other fact stand in each other's place.
    InWord1,
    /// The depth, however long the words that were looked up are.
    Depth,
    /// The length at the lowest place, or at the highest, and the least of all lengths.
    Lowest,
    Highest,
    Shortest,
    /// Places above the rows are left out, or taken for windows of zeros without the digits below.
    RowsOnly,
    ZerosAbove,
    /// The lowest place is left out. In an edit with p > 0 this is p − 1.
    WithoutLowest,
    /// The reach of the sums, in subtraction.
    OfSums,
    /// An edit looks up −1 at p = 0.
    BelowZero,
    /// An edit looks up p − 2 too, or p + h + 1.
    FurtherBelow,
    FurtherAbove,
    /// An edit leaves out p + h.
    WithoutHighest,
    /// An edit leaves out p − 1 and all but the places whose windows hold the digit.
    HoldingOnly,
    /// An edit tells the reach of a whole addition.
    Whole,
    /// An edit looks at the rows before it, or at both these and the edited ones.
    Before,
    BeforeToo,
}

/// The mistakes of this file.
pub fn mistakes() -> Vec<Mistake> {
    use Told::*;
    let anywhere = [
        Nothing, InWord1, Depth, Lowest, Highest, Shortest, RowsOnly, ZerosAbove,
    ];
    let of_edit = [
        BelowZero,
        FurtherBelow,
        FurtherAbove,
        WithoutHighest,
        HoldingOnly,
        Whole,
        Before,
        BeforeToo,
    ];
    let calls = ["add", "subtract", "edit"];
    let tells = |told| calls.map(|name| Mistake::Reach(name, told));
    let mut all: Vec<Mistake> = anywhere.into_iter().flat_map(tells).collect();
    all.extend(tells(WithoutLowest));
    all.push(Mistake::Reach("subtract", OfSums));
    all.extend(of_edit.map(|told| Mistake::Reach("edit", told)));
    all.extend(calls.map(Mistake::FaultTellsReach));
    all.extend([Mistake::RunTellsReach, Mistake::RunCountsReach]);
    all
}

impl Wrong {
    /// Calls that are taken tell another reach, and refused ones tell of one at all.
    pub(super) fn spoil_reach(&self, call: &Call, returned: u64, before: &Lent, lent: &mut Lent) {
        let name = call.name();
        match (self.mistake, returned) {
            (Mistake::Reach(of, told), FACTS) if of == name => tell(told, call, before, lent),
            (Mistake::FaultTellsReach(of), FAULT) if of == name => lent.answer[3] = 0,
            (Mistake::RunTellsReach, FACTS) if *call == Call::Run => {
                let mut added = before.clone();
                Model.call(&Call::Add, &mut added);
                lent.answer[2] = added.answer[2];
            }
            (Mistake::RunCountsReach, FACTS) if *call == Call::Run => {
                tell_instead_of_counts(before, lent)
            }
            _ => (),
        }
    }
}

fn tell(told: Told, call: &Call, before: &Lent, lent: &mut Lent) {
    match told {
        Told::Nothing => lent.answer[2] = before.answer[2],
        Told::InWord1 => lent.answer.swap(1, 2),
        _ => lent.answer[2] = reach(told, call, before, lent).unwrap_or(lent.answer[2]),
    }
}

/// A reach by other places, other rows or another choice among the lengths.
fn reach(told: Told, call: &Call, before: &Lent, lent: &Lent) -> Option<i64> {
    let looks = Looks::of(call, lent)?;
    let places = looks.places(call);
    let (lowest, above) = (places.start, places.end);
    let rows = looks.rows();
    let at_bottom = matches!(call, Call::Edit { place: 0, .. });
    let lengths = looks.lengths(places.clone());
    let right = lent.answer[2];
    Some(match told {
        Told::Depth => looks.depth(),
        Told::Lowest => *lengths.first()?,
        Told::Highest => *lengths.last()?,
        Told::Shortest => *lengths.iter().min()?,
        Told::RowsOnly => looks.longest(lowest..above.min(rows)),
        Told::ZerosAbove if above > rows => looks.longest(lowest..rows).max(looks.zeros()),
        Told::WithoutLowest if !at_bottom => looks.longest(lowest + 1..above),
        Told::OfSums => Looks::of(&Call::Add, lent)?.longest(places),
        Told::BelowZero if at_bottom => right.max(looks.length(-1)),
        Told::FurtherBelow if lowest > 0 => right.max(looks.length(lowest - 1)),
        Told::FurtherAbove => right.max(looks.length(above)),
        Told::WithoutHighest => looks.longest(lowest..above - 1),
        Told::HoldingOnly => looks.longest(above - 1 - looks.depth()..above - 1),
        Told::Whole => looks.longest(looks.places(&Call::Add)),
        Told::Before => Looks::of(call, before)?.longest(places),
        Told::BeforeToo => right.max(Looks::of(call, before)?.longest(places)),
        _ => right,
    })
}

/// The runner's edits one by one, each with its reach in the place of its count.
fn tell_instead_of_counts(before: &Lent, lent: &mut Lent) {
    let mut apart = before.clone();
    Model.call(&Call::Add, &mut apart);
    for (k, edit) in before.asked().into_iter().enumerate() {
        if Model.call(&Call::edit(edit), &mut apart) == FACTS {
            lent.values[k] = apart.answer[2] as usize;
        }
    }
}
