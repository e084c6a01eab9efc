//! Lists of edits, one by one and through the runner, and what else starts from an addition.

use reference::{Asked, Element, Operation, Parts};

use super::forecasts;
use super::lending::{answer_array, lend, spoil_rows};
use crate::codes::depth;
use crate::interface::{Call, Lent};
use crate::kinds::Kind;
use crate::needles;
use crate::pool::Pool;
use crate::random::Random;
use crate::tally::{Comparison, Outcome};

/// An accepted table, an addition, and a list of edits that starts from it.
pub fn list_of_edits(pool: &Pool, comparison: &mut Comparison, random: &mut Random) {
    let parts = pool.accepted(random);
    let mut lent = lend(&parts, parts.write(), random);
    if random.one_in(4) {
        comparison.call(Call::Check, &mut lent);
    }
    edits(&parts, comparison, &mut lent, random);
}

/// Often a subtraction of the rows; an addition, sometimes with a forecast of its bytes, and edits of what it leaves.
pub fn edits(parts: &Parts, comparison: &mut Comparison, lent: &mut Lent, random: &mut Random) {
    if random.one_in(2) {
        subtraction(comparison, lent);
    }
    let bytes = match random.one_in(4) {
        true => forecasts::of_rows(comparison, lent),
        false => None,
    };
    if comparison.call(Call::Add, lent) != Outcome::Facts {
        return;
    }
    if let Some(bytes) = bytes {
        forecasts::came_true(comparison, bytes, lent);
    }
    if random.one_in(8) {
        row_values(Call::Add, comparison, lent);
    }
    let most = match random.below(100) {
        _ if lent.table.len() > 5_000 => 8,
        0 => 600,
        1..=9 => 120,
        _ => 12,
    };
    for _ in 0..random.below(most + 1) {
        let call = random_edit(parts, lent.first.len(), random);
        comparison.call(call, lent);
    }
}

/// A subtraction with buffers of its own, so that a list goes on from what it had; the values too where it is taken.
pub fn subtraction(comparison: &mut Comparison, lent: &Lent) {
    let mut apart = lent.clone();
    if comparison.call(Call::Subtract, &mut apart) == Outcome::Facts {
        row_values(Call::Subtract, comparison, &apart);
    }
}

/// The values of both rows and of what a call made of them: where all three fit, the last is the sum or difference of the others.
fn row_values(call: Call, comparison: &mut Comparison, lent: &Lent) {
    let written = lent.answer[1] as usize;
    let mut value = |row: &[u8]| {
        let mut apart = lent.clone();
        apart.first = row.to_vec();
        let given = comparison.call(Call::Value, &mut apart) == Outcome::Facts;
        given.then(|| Element::new(&apart.answer[1..=lent.degree()]))
    };
    let (Some(first), Some(second)) = (value(&lent.first), value(&lent.second)) else {
        return;
    };
    let Some(made) = value(&lent.sum[..written]) else {
        return;
    };
    let (expected, kind) = match call {
        Call::Subtract => (&first - &second, Kind::DifferenceValues),
        _ => (&first + &second, Kind::SumValues),
    };
    comparison.count_kind(kind);
    comparison.law(made == expected, || {
        format!("{call:?} of {first:?} and {second:?} has the value {made:?}: {lent:?}")
    });
}

/// A list of edits through the runner, often a second one on what the first left; seldom with rows that break a rule.
pub fn runs(pool: &Pool, comparison: &mut Comparison, random: &mut Random) {
    let parts = pool.accepted(random);
    let mut lent = lend(&parts, parts.write(), random);
    if random.one_in(8) {
        spoil_rows(&parts, &mut lent, random);
    }
    for _ in 0..1 + random.below(2) {
        ask(&parts, &mut lent, random);
        comparison.call(Call::Run, &mut lent);
    }
}

/// Rows with a long word at one place only, often just above them; both operations, and edits about that place, each of the same rows.
pub fn needle(pool: &Pool, comparison: &mut Comparison, random: &mut Random) {
    let parts = needles::table(&pool.shallow, random);
    let length = random.below(2 * depth(&parts) + 6);
    let place = match random.one_in(4) {
        true => length,
        false => random.below(length + 2),
    };
    let operations = [Operation::Sum, Operation::Sum, Operation::Difference];
    let operation = random.pick(&operations);
    let [first, second] = needles::rows(&parts, operation, length, place, random);
    let lent = Lent {
        table: parts.write(),
        first,
        second,
        sum: random.bytes(length + depth(&parts)),
        answer: answer_array(random),
        ..Lent::default()
    };
    for call in [Call::Add, Call::Subtract] {
        comparison.call(call, &mut lent.clone());
    }
    for call in edits_about(place, &parts, &lent, random) {
        comparison.call(call, &mut lent.clone());
    }
}

/// Edits that look up a place as their lowest or highest, that just don't look it up, or that change it; and ones at the bottom. Most
/// store the digit that is there already, so that a long word stays where it is.
fn edits_about(place: usize, parts: &Parts, lent: &Lent, random: &mut Random) -> Vec<Call> {
    let depth = depth(parts);
    let under = [place.checked_sub(depth), place.checked_sub(depth + 1)];
    let near = [0, 1, place, place + 1, place + 2];
    let places = near.into_iter().chain(under.into_iter().flatten());
    let edit = |place: usize| Call::Edit {
        row: 0,
        place: place as u64,
        digit: match random.one_in(3) {
            true => random.below(parts.alphabet.len()) as u64,
            false => lent.first[place].into(),
        },
    };
    let in_rows = places.filter(|place| *place < lent.first.len());
    in_rows.map(edit).collect()
}

/// The numbers of some edits and slices for their answers, which hold anything; mostly all six have one entry for each edit.
pub fn ask(parts: &Parts, lent: &mut Lent, random: &mut Random) {
    let most = match random.below(20) {
        _ if lent.table.len() > 5_000 => 3,
        0 => 60,
        _ => 8,
    };
    let length = lent.first.len();
    let edits: Vec<Asked> = (0..random.below(most + 1))
        .map(|_| edit_numbers(parts, length, random))
        .collect();
    list_edits(&edits, lent, random);
    let slices = [
        &mut lent.rows,
        &mut lent.places,
        &mut lent.digits,
        &mut lent.whose,
        &mut lent.numbers,
        &mut lent.values,
    ];
    for slice in slices {
        match random.below(30) {
            0 => slice.truncate(random.below(slice.len() + 1)),
            1..=3 => slice.extend((0..3).map(|_| random.next() as usize)),
            _ => (),
        }
    }
}

/// The numbers of edits and slices for their answers, which hold anything; all six have one entry for each edit.
pub fn list_edits(edits: &[Asked], lent: &mut Lent, random: &mut Random) {
    let kind = |number: fn(&Asked) -> u64| edits.iter().map(|edit| number(edit) as usize).collect();
    [lent.rows, lent.places, lent.digits] = [
        kind(|edit| edit.0),
        kind(|edit| edit.1),
        kind(|edit| edit.2),
    ];
    let mut any = || edits.iter().map(|_| random.next() as usize).collect();
    [lent.whose, lent.numbers, lent.values] = [any(), any(), any()];
}

/// The numbers of an edit, mostly of one that is taken.
pub fn edit_numbers(parts: &Parts, length: usize, random: &mut Random) -> Asked {
    let [row, place, digit] =
        [2, length, parts.alphabet.len()].map(|bound| match random.one_in(12) {
            true => too_large(bound, random),
            false => random.below(bound.max(1)) as u64,
        });
    (row, place, digit)
}

/// A number that isn't below the bound: just too large, far too large, or right only in its low bits.
pub fn too_large(bound: usize, random: &mut Random) -> u64 {
    let good = random.below(bound.max(1)) as u64;
    let bound = bound as u64;
    let number = match random.below(5) {
        0 => bound,
        1 => bound + random.below(300) as u64,
        2 => random.pick(&[1 << 8, 1 << 16, 1 << 31, 1 << 32, 1 << 63]) + good,
        3 => random.pick(&[u64::MAX, u64::MAX - 1, i64::MAX as u64]),
        _ => random.next(),
    };
    number.max(bound)
}

/// An edit with such numbers.
pub fn random_edit(parts: &Parts, length: usize, random: &mut Random) -> Call {
    Call::edit(edit_numbers(parts, length, random))
}
