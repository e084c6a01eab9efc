//! Bad rows (job 5) of tables of every kind, beside the check's refusal and in front of sums that hold the string.

use reference::table::{self, Table};
use reference::{Base, Element, Parts};

use super::forecasts::FEW_LEAVES;
use super::lending::lend;
use crate::codes;
use crate::damage;
use crate::draft::Draft;
use crate::interface::{Call, Lent, ANSWER_WORDS, STRING_BYTES};
use crate::kinds::Kind;
use crate::pairs;
use crate::pool::{self, Pool};
use crate::random::Random;
use crate::tally::{Comparison, Outcome};

/// One table: with a single bad pair, with many, with a digit as large as it may be, with a bad long word, an accepted one with some weights
/// changed or as it is; seldom one that breaks another rule.
pub fn bad_rows(pool: &Pool, comparison: &mut Comparison, random: &mut Random) {
    let kind = random.below(10);
    let parts = match kind {
        0 => pool.single_pairs.pick(random).clone(),
        1 => pool.self_pairs.pick(random).clone(),
        2 => random_code(FEW_LEAVES, random),
        3 => far_out(random),
        4..=6 => long_word(pool, random),
        _ => pool.accepted(random),
    };
    let mut draft = Draft::new(&parts);
    if kind > 7 {
        for _ in 0..1 + random.below(3) {
            damage::damage(&mut draft, 14, random);
        }
    }
    if random.one_in(8) {
        damage::damage(&mut draft, random.pick(&damage::NUMBERS), random);
    }
    let lent = lend(&parts, draft.write(), random);
    checked(comparison, &lent, random);
}

fn random_code(leaves: usize, random: &mut Random) -> Parts {
    codes::random_code(pool::random_degree(random), random.below(leaves), random)
}

/// A bad digit with large parts: below a zero the base times an alphabet digit comes up from input 1, that digit goes up, and nothing is left; but
/// what goes up from input 1 itself is the base times the base times that digit. The other weights are zero.
fn far_out(random: &mut Random) -> Parts {
    let mut parts = random_code(1, random);
    codes::split(&mut parts, 0);
    let degree = parts.degree();
    parts.leaves.iter_mut().for_each(|leaf| leaf.1.fill(0));
    let one = parts.inputs.len();
    loop {
        let limit = if degree == 4 { 32 } else { 64 };
        let reach = random.pick(&[4, 16, limit]);
        for number in &mut parts.base {
            *number = random.between(-reach, reach) as i16;
        }
        let base = Base::of(&parts.base);
        let digit = &parts.alphabet[1 + random.below(parts.alphabet.len() - 1)];
        let times = base.times(&Element::of(digit));
        let fits = times.parts.iter().all(|part| part.abs() <= 1_024);
        if fits && !base.splits() && base.passes() {
            parts.leaves[1].1.clone_from(digit);
            parts.leaves[one].1 = times.record();
            return parts;
        }
    }
}

/// An accepted table with a branch of longer words, and another weight for one of the longest: in half of the tables one that passes below every
/// other leaf, where a few tries find it, so that its own word makes the string.
fn long_word(pool: &Pool, random: &mut Random) -> Parts {
    let mut parts = pool.shallow.pick(random).clone();
    let inputs = parts.inputs.len();
    let longest = 2 + random.below(codes::LONGEST_WORD - 1);
    let mut at = random.below(parts.leaves.len());
    while parts.leaves[at].0.len() < longest && parts.leaves.len() + inputs <= FEW_LEAVES {
        codes::split(&mut parts, at);
        at += random.below(inputs);
    }
    let above = random.one_in(2);
    let right = parts.leaves[at].1.clone();
    for _ in 0..10 {
        parts.leaves[at].1.clone_from(&right);
        let part = random.below(parts.degree());
        parts.leaves[at].1[part] += random.pick(&[-1, 1, -1, 1, -2, 2, 30]);
        let is_upper = |pair: &(usize, usize)| pair.0 == at;
        if !above || pairs::failing(&parts, at).iter().all(is_upper) {
            break;
        }
    }
    parts
}

/// Buffers with a string in the place of the sum: of nine bytes, often of more, seldom of fewer. Seldom the answer array is too short.
pub fn lend_string(lent: &Lent, random: &mut Random) -> Lent {
    let bytes = match random.below(16) {
        0 => random.below(STRING_BYTES),
        1..=4 => STRING_BYTES + 1 + random.below(12),
        _ => STRING_BYTES,
    };
    let mut apart = lent.clone();
    apart.sum = random.bytes(bytes);
    if random.one_in(16) {
        apart.answer.truncate(random.below(ANSWER_WORDS));
    }
    apart
}

/// The check and the call, each in buffers of its own: there is nothing to show exactly where the check accepts, its 14 names the upper leaf, and
/// its other faults are passed on. Rows with the string are added then.
pub fn checked(comparison: &mut Comparison, lent: &Lent, random: &mut Random) {
    let mut judged = lent.clone();
    let refusal = comparison.call(Call::Check, &mut judged);
    let mut apart = lend_string(lent, random);
    let outcome = comparison.call(Call::BadRow, &mut apart);
    let shown = outcome == Outcome::Facts && apart.answer[1] > 0;
    let agree = match (refusal, outcome) {
        (_, Outcome::TooShort) => true,
        (Outcome::Facts, _) => outcome == Outcome::Facts && !shown,
        (Outcome::Fault(14), _) => {
            comparison.count_kind(Kind::UpperOfCheck);
            shown && apart.answer[2] == judged.answer[2]
        }
        _ => outcome == refusal && apart.answer[..3] == judged.answer[..3],
    };
    comparison.law(agree, || {
        format!("the check says {refusal:?} and a bad row {outcome:?}: {lent:?}")
    });
    if shown {
        added(comparison, &apart, random);
    }
}

/// Rows that hold the string, other digits below and above it, and their addition: 27 at the string's top place or below.
fn added(comparison: &mut Comparison, shown: &Lent, random: &mut Random) {
    let Ok(table) = table::read(&shown.table) else {
        return;
    };
    let string = &shown.sum[..shown.answer[1] as usize];
    let Some(held) = string
        .iter()
        .rev()
        .map(|input| summands(&table, *input))
        .collect::<Option<Vec<_>>>()
    else {
        return;
    };
    let mut any = |count: usize| -> Vec<(u8, u8)> {
        let digits = table.alphabet.len();
        let mut digit = || random.below(digits) as u8;
        (0..count).map(|_| (digit(), digit())).collect()
    };
    let below = any(3);
    let top = below.len() + held.len() - 1;
    let (first, second): (Vec<u8>, Vec<u8>) = [below, held, any(2)].concat().into_iter().unzip();
    let mut lent = Lent {
        sum: random.bytes(first.len() + table.depth),
        first,
        second,
        ..shown.clone()
    };
    comparison.count_kind(Kind::AddedBadRow);
    let outcome = comparison.call(Call::Add, &mut lent);
    let refused = outcome == Outcome::Fault(27) && lent.answer[2] <= top as i64;
    comparison.law(refused, || {
        format!("the string {string:?} is added at {top}: {lent:?}")
    });
}

/// Two alphabet indexes whose digits add up to an input digit; none for a further digit.
fn summands(table: &Table, input: u8) -> Option<(u8, u8)> {
    let digits = 0..table.alphabet.len();
    let mut pairs = digits
        .clone()
        .flat_map(|x| digits.clone().map(move |y| (x, y)));
    let sum = |(x, y): &(usize, usize)| &table.alphabet[*x] + &table.alphabet[*y];
    let found = pairs.find(|pair| sum(pair) == table.inputs[usize::from(input)]);
    found.map(|(x, y)| (x as u8, y as u8))
}
