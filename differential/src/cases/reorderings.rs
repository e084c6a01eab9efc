//! Lists of edits, refused ones among them, and the same edits in another order (job 10), one by one and through the runner. Which orders the law
//! speaks of is told by the reference, and not by the way in which they are drawn.

use std::collections::{BTreeMap, VecDeque};

use reference::reorderings::{keeps_targets, target, Target};
use reference::{Asked, Parts};

use super::lists::{edit_numbers, list_edits};
use super::orders::{in_turn, start, table, three_rows};
use crate::interface::{Call, Lent, FACTS};
use crate::kinds;
use crate::orders::is_taken;
use crate::pool::Pool;
use crate::random::Random;
use crate::tally::{Comparison, Own};

/// One table and one list in two orders.
pub fn reorderings(pool: &Pool, comparison: &mut Comparison, random: &mut Random) {
    let parts = table(pool, random);
    let (lent, right) = start(&parts, comparison, random);
    let edits = list(&parts, &lent, random);
    let others = other_order(&edits, random);
    let kept = keeps_targets(&edits, &others);
    let [one, other] = [&edits, &others].map(|list| in_turn(list, &lent, comparison));
    let left = [&one, &other].map(|made| made.last().map(|own| three_rows(&own.lent)));
    let same_rows = left[0] == left[1];
    let same_total = total(&one) == total(&other);
    let taken = |edit: &Asked| is_taken(*edit, lent.first.len(), parts.alphabet.len());
    let refused = !edits.iter().all(taken);
    comparison.count_holding(match kept {
        true => kinds::orders::of_reordering([&edits, &others], refused, right, same_total),
        false => kinds::orders::of_turned_targets(same_rows),
    });
    let law = comparison.orders;
    let good =
        (same_rows || !law.same_rows_reordered(kept)) && (same_total || !law.same_total(kept));
    comparison.law(good, || {
        format!("{edits:?} and {others:?} leave {left:?}, {lent:?}")
    });
    if kept && random.one_in(3) {
        runs(&edits, &others, &lent, comparison, random);
    }
}

/// Two to twenty edits, fewer by large tables; a third of them name a target that was named before.
fn list(parts: &Parts, lent: &Lent, random: &mut Random) -> Vec<Asked> {
    let most = if lent.table.len() > 5_000 { 5 } else { 20 };
    let mut edits: Vec<Asked> = Vec::new();
    for _ in 0..2 + random.below(most - 1) {
        let mut edit = edit_numbers(parts, lent.first.len(), random);
        if !edits.is_empty() && random.one_in(3) {
            (edit.0, edit.1) = target(random.pick(&edits));
        }
        edits.push(edit);
    }
    edits
}

/// Another order, mostly one that keeps targets: these are put in any order, as often as they are named, and each time the next edit of the target
/// is taken.
fn other_order(edits: &[Asked], random: &mut Random) -> Vec<Asked> {
    if random.one_in(4) {
        let mut any = edits.to_vec();
        random.shuffle(&mut any);
        return any;
    }
    let mut waiting: BTreeMap<Target, VecDeque<Asked>> = BTreeMap::new();
    for edit in edits {
        waiting.entry(target(*edit)).or_default().push_back(*edit);
    }
    let mut targets: Vec<Target> = edits.iter().map(|edit| target(*edit)).collect();
    random.shuffle(&mut targets);
    let next = |name: &Target| waiting.get_mut(name)?.pop_front();
    targets.iter().filter_map(next).collect()
}

/// The counts of all edits that were taken.
fn total(made: &[Own]) -> i64 {
    let taken = made.iter().filter(|own| own.returned == FACTS);
    taken.map(|own| own.lent.answer[1]).sum()
}

/// Both orders through the runner, which adds first.
fn runs(
    edits: &[Asked],
    others: &[Asked],
    lent: &Lent,
    comparison: &mut Comparison,
    random: &mut Random,
) {
    let [one, other] = [edits, others].map(|list| {
        let mut apart = lent.clone();
        list_edits(list, &mut apart, random);
        comparison.call_own(Call::Run, &mut apart).1
    });
    comparison.count_kind(kinds::Kind::ReorderedRuns);
    let same = one.returned == other.returned && three_rows(&one.lent) == three_rows(&other.lent);
    comparison.law(same, || {
        format!(
            "{edits:?} and {others:?} through the runner: {:?}, {:?}",
            one.lent, other.lent
        )
    });
}
