//! Rows and their negated rows (job 3), added and subtracted by mirrored tables and by others. By a mirrored one the sum and the difference of
//! the negated rows have to be the negated ones; this is demanded of the implementation's own answers.

use reference::mirrored::{is_mirrored, negated_row};
use reference::table::{self, Table};
use reference::Parts;

use super::lending::lend;
use crate::interface::{Call, Lent, FACTS};
use crate::kinds;
use crate::mirrors;
use crate::pool::Pool;
use crate::random::Random;
use crate::tally::{Comparison, Outcome, Own};

/// One table: TERN or BIN, another mirrored one, one that nearly is, or any accepted one; and both operations.
pub fn mirrored(pool: &Pool, comparison: &mut Comparison, random: &mut Random) {
    let parts = match random.below(10) {
        0 | 1 => carried(Call::Tern, comparison, random),
        2 | 3 => carried(Call::Bin, comparison, random),
        4..=6 => pool.mirrored.pick(random).clone(),
        7 | 8 => mirrors::nearly(pool.mirrored.pick(random), random),
        _ => pool.accepted(random),
    };
    let mut lent = lend(&parts, parts.write(), random);
    let Ok(table) = table::read(&lent.table) else {
        return;
    };
    let mirrored = is_mirrored(&table);
    comparison.count_holding(kinds::mirrored::of_table(&lent, &table, mirrored));
    let negated = negate(&table, &mut lent);
    for call in [Call::Add, Call::Subtract] {
        let mut apart = [lent.clone(), negated.clone()];
        let answers = apart.each_mut().map(|lent| comparison.call_own(call, lent));
        let (outcome, own) = (answers[0].0, answers.map(|answer| answer.1));
        match (mirrored, outcome) {
            (true, _) => {
                comparison.count_holding(kinds::mirrored::kept(call, outcome));
                demand(&table, call, own, comparison);
            }
            (false, Outcome::Facts) => {
                comparison.count_holding(kinds::mirrored::broken(&table, &apart[0], &apart[1]))
            }
            _ => (),
        }
    }
}

/// A carried table, which is asked for at the same time.
fn carried(call: Call, comparison: &mut Comparison, random: &mut Random) -> Parts {
    let parts = match call {
        Call::Tern => reference::carried::tern_parts(),
        _ => reference::carried::bin_parts(),
    };
    let room = parts.write().len() + random.below(3);
    let mut lent = Lent {
        sum: random.bytes(room),
        ..Lent::default()
    };
    comparison.call(call, &mut lent);
    parts
}

/// The same buffers with the negated rows; digits that have no negated one are zero in both.
fn negate(table: &Table, lent: &mut Lent) -> Lent {
    let mut negated = lent.clone();
    let rows = [&mut lent.first, &mut lent.second];
    let others = [&mut negated.first, &mut negated.second];
    for (digit, other) in rows.into_iter().flatten().zip(others.into_iter().flatten()) {
        match negated_row(table, &[*digit]) {
            Some(found) => *other = found[0],
            None => (*digit, *other) = (0, 0),
        }
    }
    negated
}

/// The law: the same is returned and told, and where that is facts, the digits that are written are the negated ones. All else is the same as
/// well, since both had the same buffers.
fn demand(table: &Table, call: Call, [own, negated]: [Own; 2], comparison: &mut Comparison) {
    let told = own.returned == negated.returned && own.lent.answer == negated.lent.answer;
    let written = match own.returned {
        FACTS => own.lent.answer[1] as usize,
        _ => 0,
    };
    let digits = (own.lent.sum.get(..written), negated.lent.sum.get(..written));
    let turned = match digits {
        (Some(digits), Some(others)) => negated_row(table, digits).as_deref() == Some(others),
        _ => false,
    };
    let kept = own.lent.sum.get(written..) == negated.lent.sum.get(written..);
    comparison.law(told && turned && kept, || {
        format!(
            "{call:?} by a mirrored table gives {:?}, and of the negated rows {:?}",
            own.lent, negated.lent
        )
    });
}
