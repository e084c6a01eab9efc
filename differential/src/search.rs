//! A search for weight tables: which weights convert the sums of two digits, and further input digits where there are some, back into
//! the alphabet.
//!
//! It is the usual one for parallel addition. First a set Q of weights is grown from zero until every input digit plus a weight of Q
//! is an alphabet digit plus β times a weight of Q. Then the set is narrowed for each window, one digit deeper at a time: what a
//! window may need is decided by what the window below it may send up. A window left with one weight is a leaf.

use std::collections::HashMap;

use reference::{Answer, Base, Element, Parts};

use crate::division::{Dividend, Division};
use crate::random::Random;
use crate::systems::{self, System};

const LARGEST_WEIGHT_SET: usize = 40;
const LARGEST_CODE: usize = 4_000;
const LONGEST_WORD: usize = 8;

/// Tables of degree two for many bases, found by trying random systems, with input digits beyond the sums if so wanted.
pub fn tables(wanted: usize, further: bool, random: &mut Random) -> Vec<Parts> {
    let mut found: Vec<Parts> = Vec::new();
    let mut tries_left = 400 * wanted;
    while found.len() < wanted && tries_left > 0 {
        tries_left -= 1;
        let mut system = systems::random_system(2, random);
        if further && !systems::add_further(&mut system, random) {
            continue;
        }
        let numbers = system.base.numbers();
        let of_base = found.iter().filter(|parts| parts.base == numbers);
        if of_base.count() < 2 {
            found.extend(weights(&system, random));
        }
    }
    found
}

/// Tables of degree three that come from no smaller ring: the base's cube is 3 or 4 or their opposite, so that a weight holds what goes
/// three places up, two and one. Of other such bases a random search finds next to none.
pub fn cubic_tables(wanted: usize, random: &mut Random) -> Vec<Parts> {
    let mut found: Vec<Parts> = Vec::new();
    let mut tries_left = 20 * wanted;
    while found.len() < wanted && tries_left > 0 {
        tries_left -= 1;
        let cube = random.pick(&[-4, -3, -3, 3, 3, 4]);
        let digits = i64::from(i16::abs(cube)) + 2;
        let lowest = random.between(1 - digits, 0);
        let alphabet = systems::whole_numbers(lowest, lowest + digits - 1, 3);
        let system = System {
            base: Base::of(&[0, 0, cube, 0, 1, 0]),
            inputs: systems::sums(&alphabet, random),
            alphabet,
        };
        found.extend(weights(&system, random));
    }
    found
}

/// A table of the system, if the search finds one that the reference accepts.
pub fn weights(system: &System, random: &mut Random) -> Option<Parts> {
    let weights = Weights::of(system, random)?;
    let parts = parts(system, narrow(&weights, random)?);
    is_accepted(&parts).then_some(parts)
}

/// The reference's check accepts the table.
pub fn is_accepted(parts: &Parts) -> bool {
    matches!(reference::check(&parts.write()), Answer::Facts(_))
}

/// Some of the weights of Q, a bit for each.
type Set = u64;

/// Some of them by their numbers, in order of choice.
type Numbers = Vec<usize>;

/// The set Q, zero first.
struct Weights {
    list: Vec<Element>,
    /// For each input digit and each weight that is sent up to it: the weights that bring their sum into the alphabet.
    serving: Vec<Vec<Set>>,
}

impl Weights {
    /// Q is grown until it is closed; none where it grows too large or a class of digits is missing.
    fn of(system: &System, random: &mut Random) -> Option<Self> {
        let division = Division::by(&system.base);
        let digits = system.alphabet.iter().map(|digit| division.dividend(digit));
        let digits: Vec<Dividend> = digits.collect();
        let senders = |target: &Element| -> Vec<Element> {
            let target = division.dividend(target);
            let divided = |digit| division.quotient(&target, digit);
            digits.iter().filter_map(divided).collect()
        };
        let mut list = vec![system.alphabet[0].clone()];
        let mut next = 0;
        while next < list.len() {
            for input in &system.inputs {
                let mut senders = senders(&(input + &list[next]));
                if senders.iter().any(|weight| list.contains(weight)) {
                    continue;
                }
                random.shuffle(&mut senders);
                let size = |e: &Element| -> i64 { e.parts.iter().map(|part| part * part).sum() };
                list.push(senders.into_iter().min_by_key(size)?);
                if list.len() > LARGEST_WEIGHT_SET {
                    return None;
                }
            }
            next += 1;
        }
        let set = |input: &Element, weight: &Element| {
            let known = |sender| list.iter().position(|known| *known == sender);
            let numbers = senders(&(input + weight)).into_iter().filter_map(known);
            numbers.fold(0, |set, number| set | 1 << number)
        };
        let serving = |input| list.iter().map(|weight| set(input, weight)).collect();
        let serving = system.inputs.iter().map(serving).collect();
        Some(Weights { list, serving })
    }
}

/// What is known of each window so far; the empty window has all of Q.
type Sets = HashMap<Vec<u8>, Numbers>;

/// Narrows the set of each window until one weight is left; none where a window of eight keeps more, or there are too many.
fn narrow(weights: &Weights, random: &mut Random) -> Option<Vec<(Vec<u8>, Element)>> {
    let inputs = weights.serving.len();
    let all = (0..weights.list.len()).collect();
    let mut sets: Sets = HashMap::from([(Vec::new(), all)]);
    let mut open: Vec<Vec<u8>> = vec![Vec::new()];
    let mut leaves = Vec::new();
    for _ in 0..LONGEST_WORD {
        let mut still_open = Vec::new();
        for window in open {
            for input in 0..inputs {
                let mut word = window.clone();
                word.push(input as u8);
                let left = needed(weights, &sets, &word, random);
                match left[..] {
                    [weight] => leaves.push((word.clone(), weights.list[weight].clone())),
                    _ => still_open.push(word.clone()),
                }
                sets.insert(word, left);
                if leaves.len() + still_open.len() * inputs > LARGEST_CODE {
                    return None;
                }
            }
        }
        open = still_open;
    }
    leaves.sort_by(|x, y| x.0.cmp(&y.0));
    open.is_empty().then_some(leaves)
}

/// The weights that a window keeps: enough of its parent's to serve whatever the window below may send up.
fn needed(weights: &Weights, sets: &Sets, word: &[u8], random: &mut Random) -> Numbers {
    let (first, below) = (usize::from(word[0]), &word[1..]);
    let mut lengths = (0..=below.len()).rev();
    let sent_up = lengths.find_map(|length| sets.get(&below[..length]));
    let unserved = sent_up.into_iter().flatten();
    let unserved = unserved.map(|number| weights.serving[first][*number]);
    let mut candidates = sets[&word[..word.len() - 1]].clone();
    random.shuffle(&mut candidates);
    // Windows of zeros try the weight zero first, for rule 13.
    let zeros = word.iter().all(|index| *index == 0);
    candidates.sort_by_key(|number| zeros && *number != 0);
    cover(unserved.collect(), candidates)
}

/// Weights of which each unserved set has one, chosen greedily, the earlier candidate first.
fn cover(mut unserved: Vec<Set>, mut candidates: Numbers) -> Numbers {
    let serves = |number: usize, set: &Set| set >> number & 1 == 1;
    let mut kept = Vec::new();
    while !unserved.is_empty() {
        let count = |at: &usize| {
            let served = unserved.iter().filter(|set| serves(candidates[*at], set));
            served.count()
        };
        let Some(best) = (0..candidates.len()).rev().max_by_key(count) else {
            break;
        };
        let number = candidates.remove(best);
        unserved.retain(|set| !serves(number, set));
        kept.push(number);
    }
    kept
}

/// The parts of a table file; all numbers are small here.
pub fn parts(system: &System, leaves: Vec<(Vec<u8>, Element)>) -> Parts {
    let records = |elements: &[Element]| elements.iter().map(Element::record).collect();
    let leaf = |(word, weight): (Vec<u8>, Element)| (word, weight.record());
    Parts {
        base: system.base.numbers(),
        alphabet: records(&system.alphabet),
        inputs: records(&system.inputs),
        leaves: leaves.into_iter().map(leaf).collect(),
    }
}
