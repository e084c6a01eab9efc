//! Two edits in either order (job 10), by accepted tables. The law makes its demands of the implementation's own answers, so that each edit goes
//! on from the buffers as the implementation itself left them.

use reference::reorderings::target;
use reference::{carried, Asked, Operation, Parts};

use super::lending::lend_rows;
use super::lists::too_large;
use crate::codes::depth;
use crate::interface::{Call, Lent, FACTS};
use crate::kinds;
use crate::needles;
use crate::orders::{is_taken, Same, Standing};
use crate::pool::Pool;
use crate::random::Random;
use crate::tally::{Comparison, Own};

/// One table, two edits, both orders.
pub fn orders(pool: &Pool, comparison: &mut Comparison, random: &mut Random) {
    let parts = table(pool, random);
    let (lent, right) = start(&parts, comparison, random);
    let edits = two_edits(&parts, lent.first.len(), random);
    let [e, f] = edits;
    let one = in_turn(&[e, f], &lent, comparison);
    let other = in_turn(&[f, e], &lent, comparison);
    let taken = |edit: Asked| is_taken(edit, lent.first.len(), parts.alphabet.len());
    let standing = Standing {
        distance: e.1.abs_diff(f.1),
        depth: depth(&parts) as u64,
        one_target: target(e) == target(f),
        taken: taken(e) && taken(f),
        right,
    };
    let same = compare(edits, &one, &other);
    comparison.count_holding(kinds::orders::of_table(&lent, &standing));
    comparison.count_holding(kinds::orders::of_edits(edits, &standing));
    comparison.count_holding(kinds::orders::of_answers(&standing, &same));
    let sums = [&lent.sum, &one[0].lent.sum, &one[1].lent.sum];
    comparison.count_holding(kinds::orders::of_sums(edits, &standing, sums));
    demand(edits, &lent, &standing, &same, comparison);
}

/// TERN, BIN, one with a branch of long words, or any accepted one.
pub fn table(pool: &Pool, random: &mut Random) -> Parts {
    match random.below(8) {
        0 => carried::tern_parts(),
        1 => carried::bin_parts(),
        2 => needles::table(&pool.shallow, random),
        _ => pool.accepted(random),
    }
}

/// Rows and a sum to start from, and whether that is a right sum: mostly what addition writes, else with one digit changed, or any bytes.
pub fn start(parts: &Parts, comparison: &mut Comparison, random: &mut Random) -> (Lent, bool) {
    let length = row_length(depth(parts), random);
    let whole = length + depth(parts);
    let room = whole + random.pick(&[0, 0, 0, 1, 9]);
    let mut lent = lend_rows(parts, parts.write(), length, room, random);
    if random.one_in(3) {
        // Short words but for one, so that an edit that makes a longer one is told by the reach.
        let place = random.below(length + 2);
        let rows = needles::rows(parts, Operation::Sum, length, place, random);
        [lent.first, lent.second] = rows;
    }
    let sum = random.below(8);
    if sum == 0 {
        return (lent, false);
    }
    let (_, own) = comparison.call_own(Call::Add, &mut lent);
    lent = own.lent;
    if sum < 3 {
        lent.sum[random.below(whole)] = random.below(parts.alphabet.len()) as u8;
    }
    (lent, sum >= 3 && own.returned == FACTS)
}

/// At least a digit; mostly so many that there are places more than h apart.
fn row_length(depth: usize, random: &mut Random) -> usize {
    match random.below(20) {
        0 => 256,
        1 => 1 + random.below(256),
        2..=4 => 1 + random.below(depth + 2),
        _ => 2 + depth + random.below(depth + 8),
    }
}

/// Two edits at some distance, in any order: of one place, mostly of both rows; nearer than h; h, h + 1 and any other number of places apart.
/// Seldom one of them is refused.
fn two_edits(parts: &Parts, length: usize, random: &mut Random) -> [Asked; 2] {
    let (depth, digits) = (depth(parts), parts.alphabet.len());
    let distance = match random.below(8) {
        0 => 0,
        1 | 2 => random.below(depth),
        3..=5 => depth,
        6 => depth + 1,
        _ => random.below(length),
    };
    let distance = distance.min(length - 1);
    let low = random.below(length - distance);
    let row = random.below(2);
    let other = match distance == 0 && random.one_in(2) {
        true => 1 - row,
        false => random.below(2),
    };
    let mut edits = [(row, low), (other, low + distance)]
        .map(|(row, place)| [row, place, random.below(digits)].map(|number| number as u64));
    random.shuffle(&mut edits);
    if random.one_in(8) {
        let at = random.below(3);
        edits[0][at] = too_large([2, length, digits][at], random);
    }
    edits.map(|[row, place, digit]| (row, place, digit))
}

/// Edits one after the other, each of what the implementation made of the one before: its answers and what it left.
pub fn in_turn(edits: &[Asked], lent: &Lent, comparison: &mut Comparison) -> Vec<Own> {
    let mut lent = lent.clone();
    let mut made = |edit: &Asked| {
        let (_, own) = comparison.call_own(Call::edit(*edit), &mut lent);
        lent.clone_from(&own.lent);
        own
    };
    edits.iter().map(&mut made).collect()
}

/// The three rows as lent or left.
pub fn three_rows(lent: &Lent) -> [&[u8]; 3] {
    [&lent.first, &lent.second, &lent.sum]
}

/// What is the same after two edits and after the same two in the other order.
fn compare([e, f]: [Asked; 2], one: &[Own], other: &[Own]) -> Same {
    let both: Vec<_> = one.iter().zip(other.iter().rev()).collect();
    let told = |word: usize| {
        both.iter()
            .map(move |(x, y)| x.lent.answer[word] == y.lent.answer[word])
    };
    Same {
        refused: both.iter().all(|(x, y)| x.returned == y.returned),
        rows: three_rows(&one[1].lent) == three_rows(&other[1].lent),
        counts: told(1).all(|same| same),
        reach: told(2).all(|same| same),
        higher_reach: told(2).nth(usize::from(f.1 > e.1)) == Some(true),
    }
}

/// The law of two edits.
fn demand(
    edits: [Asked; 2],
    lent: &Lent,
    standing: &Standing,
    same: &Same,
    comparison: &mut Comparison,
) {
    let law = comparison.orders;
    let kept = [
        !law.same_rows(standing) || same.rows && same.refused,
        !law.same_counts(standing) || same.counts,
        !law.same_reach(standing) || same.reach,
        !law.same_higher_reach(standing) || same.higher_reach,
    ];
    comparison.law(kept == [true; 4], || {
        format!("{edits:?} in either order, {standing:?}: {same:?}; {lent:?}")
    });
}
