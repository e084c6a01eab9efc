//! Rule 14, and how many pairs it speaks of. The lower leaves that fit an upper one are a run of neighbours, and the runs of upper leaves with
//! the same first digit follow one another, so both are walked side by side and nothing is searched.

use super::degree::{Degree, Key};
use super::weights::Sets;
use super::{Pairs, Table};

/// With so few leaves the pairs are gone through one by one, since the sets of weights cost more to make. Chosen between TERN, where
/// that is quicker, and the table of 287 leaves, where it isn't; nothing in between was tried.
const FEW_LEAVES: usize = 20;

/// The number of fitting pairs; as an error the lowest upper leaf that gives no alphabet digit with some lower leaf that fits.
pub fn judge<D: Degree>(table: &Table<D>, pairs: Pairs) -> Result<usize, usize> {
    if pairs == Pairs::Runs || table.code.count() <= FEW_LEAVES {
        return by_runs(table);
    }
    let Some(sets) = Sets::of(table) else {
        return by_runs(table);
    };
    match sets.first_bad_upper(table) {
        Some(upper) => Err(upper),
        None => Ok(count(table)),
    }
}

/// The number of fitting pairs. The tails of the upper words with one first digit are a complete code, as the words are. A tail and a word fit
/// where one begins the other; let the pair stand where the longer one starts in the order of strings. So there is a pair wherever a word or a
/// tail starts: for each first digit as many as leaves, and one more for each tail that starts where no word does. Such a tail goes on behind
/// a leaf's end, and not with zeros alone. Tails that differ in their last digit alone are looked for once.
pub fn count<D: Degree>(table: &Table<D>) -> usize {
    let code = &table.code;
    let (mut parent, mut lower, mut ended) = ((0, 0), 0, false);
    let mut beyond = 0;
    for (leaf, word) in code.keys.iter().enumerate() {
        let length = code.length(leaf);
        if length < 3 {
            continue;
        }
        let without_last = word >> (72 - 8 * length);
        if parent != (without_last, length) {
            parent = (without_last, length);
            lower = code.search(without_last << (72 - 8 * length) << 8);
            ended = code.length(lower) <= length - 2;
        }
        beyond += usize::from(ended && word << 8 != code.keys[lower]);
    }
    code.count() * table.sections.inputs.len() + beyond
}

/// What an upper leaf adds to a lower leaf's weight: its first digit minus β times its weight.
#[inline(always)]
pub fn offset<D: Degree>(table: &Table<D>, upper: usize) -> D::Key {
    let first = (table.code.keys[upper] >> 56) as usize;
    let carried_up = D::key_times_base(&table.sections.base, table.code.weight(upper));
    let first = D::element(table.sections.inputs[first].as_ref());
    D::key(first).minus(carried_up)
}

/// The first leaf of the run that fits an upper leaf and gives no alphabet digit with it.
pub fn first_bad_lower<D: Degree>(table: &Table<D>, upper: usize) -> usize {
    let code = &table.code;
    let offset = offset(table, upper);
    // A word that begins the tail, or the first that the tail begins.
    let start = code.search(code.keys[upper] << 8);
    let end = run(&code.keys, start, tail_end(table, upper));
    let digit = |lower: usize| D::key(code.weight(lower)).plus(offset);
    let bad = (start..end).find(|lower| table.alphabet.index(digit(*lower)).is_none());
    bad.expect("an upper leaf that fails")
}

/// The parts of the digit that two leaves give.
pub fn digit<D: Degree>(table: &Table<D>, upper: usize, lower: usize) -> D::Parts {
    let first = (table.code.keys[upper] >> 56) as usize;
    let mut digit = D::element(table.sections.inputs[first].as_ref());
    let comes_up = table.code.weight(lower);
    for (sum, part) in digit.as_mut().iter_mut().zip(comes_up.as_ref()) {
        *sum += part;
    }
    let goes_up = table.code.weight(upper);
    for (power, part) in table.sections.base.as_ref().iter().zip(goes_up.as_ref()) {
        for (sum, of_power) in digit.as_mut().iter_mut().zip(power.as_ref()) {
            *sum -= of_power * part;
        }
    }
    digit
}

/// The upper word's first digit, then the longer of its tail and the lower word; how many bytes that is.
pub fn write_string<D: Degree>(
    table: &Table<D>,
    upper: usize,
    lower: usize,
    string: &mut [u8],
) -> usize {
    let code = &table.code;
    let [high, low] = [upper, lower].map(|leaf| code.keys[leaf].to_be_bytes());
    let [high, low] =
        [(&high, upper), (&low, lower)].map(|(word, leaf)| &word[..code.length(leaf)]);
    let tail = &high[1..];
    let below = if tail.len() > low.len() { tail } else { low };
    string[0] = high[0];
    string[1..][..below.len()].copy_from_slice(below);
    1 + below.len()
}

/// Pair by pair.
fn by_runs<D: Degree>(table: &Table<D>) -> Result<usize, usize> {
    let code = &table.code;
    let weights: Vec<D::Key> = (0..code.count())
        .map(|leaf| D::key(code.weight(leaf)))
        .collect();
    // The first leaf of the run that fits the upper leaf.
    let (mut lower, mut pairs) = (0, 0);
    for upper in 0..code.count() {
        let offset = offset(table, upper);
        let run = run(&code.keys, lower, tail_end(table, upper));
        let good = |weight: &D::Key| table.alphabet.index(weight.plus(offset)).is_some();
        if !weights[lower..run].iter().all(good) {
            return Err(upper);
        }
        pairs += run - lower;
        lower = next_lower(table, upper, run - 1);
    }
    Ok(pairs)
}

/// The end of the run of leaves from one on whose words are below a bound; the one itself is in it.
fn run(keys: &[u64], lower: usize, bound: Option<u64>) -> usize {
    let Some(bound) = bound else {
        return keys.len();
    };
    let others = keys[lower + 1..].iter().take_while(|word| **word < bound);
    lower + 1 + others.count()
}

/// The number above the upper word without its first digit, and all that it begins; none if that is every string.
fn tail_end<D: Degree>(table: &Table<D>, upper: usize) -> Option<u64> {
    let tail_length = table.code.length(upper) - 1;
    let unit = 1u64.checked_shl(64 - 8 * tail_length as u32)?;
    Some((table.code.keys[upper] << 8) + unit)
}

/// The first lower leaf of the next upper leaf: the last of this run where it reaches beyond this upper leaf.
fn next_lower<D: Degree>(table: &Table<D>, upper: usize, last: usize) -> usize {
    let Some(&next) = table.code.keys.get(upper + 1) else {
        return 0;
    };
    if next >> 56 != table.code.keys[upper] >> 56 {
        return 0;
    }
    let end = table.code.keys.get(last + 1).copied().unwrap_or(u64::MAX);
    last + usize::from(next << 8 >= end)
}
